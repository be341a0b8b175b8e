"""Traces: message passing in each way that its steps can come, other classic ones, traces by hand, and generated ones.

In a bad trace a bar stands where the first line of another form starts; it is no part of the trace."""
from itertools import combinations
import random

from candidates import *
from machine import DRAIN, FIRST, LONGEST, STEPS, read, run
from texts import ORDERS


def trace(t, p, steps):
    return "".join(line + "\n" for line in [FIRST.format(t=t, p=p), *steps])


def set_up(places):
    """Thread 0 stores 0, relaxed, to each place, and drains."""
    return ["astore 0 %d relaxed 0" % place for place in range(places)] + ["drain 0"] * places


# ---- classic traces: what is read is read off the candidate

def ways(one, two):
    """Each way that the steps of two threads can come."""
    for chosen in combinations(range(len(one) + len(two)), len(one)):
        left, right = iter(one), iter(two)
        yield [next(left) if i in chosen else next(right) for i in range(len(one) + len(two))]


def sends():
    """Thread 1 stores 1 to place 0 and then to place 1, and drains them both last, or each at once."""
    data, flag, drain = "astore 1 0 relaxed 1", "astore 1 1 release 1", "drain 1"
    return [data, flag, drain, drain], [data, drain, flag, drain]


def values(text):
    """What the loads of a trace read, in the order of their threads and places."""
    acts = run(text.encode())[0].acts
    return [x[4] for x in sorted((x for x in acts if x[0] == ALOAD), key=lambda x: (x[2], x[3]))]


def passings():
    """Thread 2 loads place 1 and then place 0: never 1 and then 0."""
    gets = ["aload 2 1 acquire", "aload 2 0 relaxed"]
    texts = [trace(3, 2, set_up(2) + way) for own in sends() for way in ways(own, gets)]
    assert len(texts) == 30 and {tuple(values(text)) for text in texts} == {(0, 0), (1, 0), (1, 1)}
    return {"passing_%02d" % i: text for i, text in enumerate(texts)}


def bufferings():
    """Each thread stores 1 to its own place and loads the other's: both may read 0."""
    early = lambda own: ["astore %d %d release 1" % (own, own - 1), "drain %d" % own, "aload %d %d acquire" % (own, 2 - own)]
    late = lambda own: [early(own)[0], early(own)[2], early(own)[1]]
    found = {}
    for one in early(1), late(1):
        for two in early(2), late(2):
            for way in ways(one, two):
                text = trace(3, 2, set_up(2) + way)
                found.setdefault("buffering_%d_%d" % tuple(values(text)), text)
    assert sorted(found) == ["buffering_0_0", "buffering_0_1", "buffering_1_0", "buffering_1_1"]
    return found


# ---- by hand

RING = trace(3, 3, [
    "astore 0 0 relaxed 0", "astore 0 1 relaxed 0", "astore 0 2 relaxed 0", "drain 0", "drain 0", "drain 0",
    "astore 1 0 relaxed 60", "astore 1 2 release 1", "drain 1", "aload 2 2 acquire", "astore 1 1 relaxed 100", "drain 1",
    "aload 2 2 acquire", "aload 2 0 relaxed", "astore 1 2 release 2", "drain 1", "drain 1", "aload 2 2 acquire", "aload 2 1 relaxed"])

GOOD = {
    "ring": RING,
    "nothing": "machine 0 0\n",
    "no_threads": "machine 0 1\nastore 0 0 relaxed 1\ndrain 0\n",
    "no_places": "machine 1 0\nastore 0 0 relaxed 1\ndrain 0\n",
    "largest": trace(16, 64, ["astore 15 63 relaxed 4294967295", "drain 15", "aload 15 63 acquire", "drain 16", "aload 16 63 relaxed", "aload 15 64 relaxed"]),
    # unwritten memory is 0, with no source
    "unwritten": trace(2, 1, ["aload 1 0 relaxed", "rmw 1 0 relaxed 5", "aload 1 0 relaxed"]),
    # the newest entry of the own queue, though an older one was drained; another thread sees memory
    "own_queue": trace(3, 2, set_up(2) + ["astore 1 0 relaxed 1", "astore 1 1 relaxed 2", "astore 1 0 relaxed 3", "drain 1", "aload 1 0 relaxed", "aload 2 0 relaxed", "aload 1 1 relaxed", "aload 2 1 relaxed", "drain 1", "drain 1", "aload 2 0 relaxed"]),
    # an entry for another place is passed over
    "other_place": trace(2, 2, set_up(2) + ["astore 1 0 relaxed 1", "aload 1 1 relaxed", "drain 1", "aload 1 0 relaxed"]),
    # mo by arrival in memory, not by issue
    "arrival": trace(3, 1, set_up(1) + ["astore 1 0 relaxed 1", "astore 2 0 relaxed 2", "drain 2", "drain 1", "aload 2 0 relaxed"]),
    "rmw_between": trace(4, 1, set_up(1) + ["astore 1 0 release 1", "rmw 2 0 acq_rel 2", "drain 1", "rmw 3 0 acquire 3", "aload 1 0 acquire"]),
    # the machine goes on after a refusal, which changes nothing
    "rmw_filled": trace(2, 2, set_up(2) + ["astore 1 0 relaxed 1", "rmw 1 1 relaxed 2", "aload 1 1 relaxed", "drain 1", "rmw 1 1 relaxed 2", "drain 1"]),
    # no asw without an action of thread 0
    "no_zero": trace(3, 1, ["astore 1 0 relaxed 1", "drain 1", "aload 2 0 relaxed"]),
    "zero_late": trace(2, 1, ["astore 1 0 relaxed 1", "drain 1", "astore 0 0 relaxed 2", "drain 0", "aload 1 0 relaxed"]),
    # edition 2 doesn't pass these: a place that thread 0 didn't store to, a drain that came late, a store that never came
    "not_stored": trace(3, 2, ["astore 0 0 relaxed 0", "drain 0", "astore 1 1 relaxed 1", "drain 1", "aload 2 1 relaxed"]),
    "drained_late": trace(2, 1, ["astore 0 0 relaxed 1", "aload 1 0 relaxed", "drain 0"]),
    "left_waiting": trace(2, 1, set_up(1) + ["astore 1 0 relaxed 1"]),
    "refused_kinds": trace(2, 2, ["lock 0 0", "unlock 1 1", "load 0 0", "store 1 0 5", "fence 1 seq_cst", "fence 9 relaxed", "lock 9 99", "store 0 0 4294967295"]),
    "refused_orders": trace(1, 1, ["%s" % STEPS[kind].format(thread=0, place=0, order=order, written=0) for kind in (ALOAD, ASTORE, RMW) for order in ORDERS]),
    "refused_fields": trace(2, 2, ["aload 2 0 relaxed", "aload 0 2 relaxed", "aload 4294967295 0 relaxed", "astore 0 65536 relaxed 1", "drain 2", "drain 65536", "rmw 2 0 seq_cst 1", "aload 2 0 release"]),
    "full": trace(2, 1, ["astore 1 0 relaxed 1"] + ["aload 0 0 relaxed"] * 63 + ["aload 0 0 relaxed", "rmw 1 0 relaxed 1", "rmw 2 0 relaxed 1", "lock 0 0", "drain 1", "drain 1"]),
}

BAD = {
    "empty": "|",
    "no_newline": "|machine 1 1",
    "blank": "|\n",
    "other_word": "|machines 1 1\n",
    "upper_case": "|Machine 1 1\n",
    "one_number": "|machine 1\n",
    "three_numbers": "|machine 1 1 1\n",
    "zero_before": "|machine 01 1\n",
    "minus": "|machine -1 1\n",
    "past_32_bits": "|machine 4294967296 1\n",
    "past_64_bits": "|machine 1 18446744073709551617\n",
    "cr": "|machine 1 1\r\n",
    "step_first": "|drain 0\nmachine 1 1\n",
    "machine_twice": "machine 1 1\n|machine 1 1\n",
    "blank_step": "machine 1 1\n|\ndrain 0\n",
    "blank_last": "machine 1 1\ndrain 0\n|\n",
    "unknown": "machine 1 1\n|read 0 0 relaxed\n",
    "end": "machine 1 1\ndrain 0\n|end\n",
    "value_read": "machine 1 1\n|aload 0 0 relaxed 0\n",
    "rmw_as_drawn": "machine 1 1\n|rmw 0 0 relaxed 0 1\n",
    "no_value": "machine 1 1\n|astore 0 0 relaxed\n",
    "no_order": "machine 1 1\n|astore 0 0 1\n",
    "other_order": "machine 1 1\n|astore 0 0 strong 1\n",
    "order_first": "machine 1 1\n|astore relaxed 0 0 1\n",
    "fence_with_a_place": "machine 1 1\n|fence 0 0 relaxed\n",
    "lock_with_a_value": "machine 1 1\n|lock 0 0 0\n",
    "load_as_drawn": "machine 1 1\n|load 0 0 0\n",
    "drain_alone": "machine 1 1\n|drain\n",
    "drain_of_none": "machine 1 1\n|drain \n",
    "drain_of_two": "machine 1 1\n|drain 0 0\n",
    "drain_joined": "machine 1 1\n|drain0\n",
    "drain_upper_case": "machine 1 1\n|Drain 0\n",
    "zero_before_thread": "machine 1 1\n|drain 00\n",
    "thread_past_32_bits": "machine 1 1\n|drain 4294967296\n",
    "value_past_32_bits": "machine 1 1\n|astore 0 0 relaxed 4294967296\n",
    "two_spaces": "machine 1 1\n|aload 0  0 relaxed\n",
    "space_before": "machine 1 1\n| drain 0\n",
    "space_after": "machine 1 1\n|drain 0 \n",
    "tab": "machine 1 1\n|drain\t0\n",
    "nul": "machine 1 1\n|drain 0\0\n",
    "byte_255": "machine 1 1\n|drain \xff\n",
    "last_cut": "machine 1 1\ndrain 0\n|drain 0",
    "second_of_two": "machine 1 1\nlock 0 0\n|locks 0 0\nlocks 0 0\n",
    # 13 comes before 15, and a good line that is refused before it is not told
    "limits_and_form": "machine 17 1\n|drain\n",
}

BEYOND = {
    "threads": "machine 17 0\n",
    "places": "machine 0 65\n",
    "both_and_steps": "machine 4294967295 4294967295\nlock 0 0\ndrain 0\n",
}


# ---- generated

def any_step(chance, t, p, refused):
    """A step that may be refused, of about one field in `refused`."""
    number = lambda bound: bound + chance.randrange(2) if chance.randrange(refused) == 0 else chance.randrange(max(1, bound))
    if chance.randrange(3) == 0:
        return DRAIN.format(thread=number(t))
    kind = chance.choice(list(STEPS)) if chance.randrange(refused) == 0 else chance.choice((ALOAD, ASTORE, RMW))
    orders = ORDERS if chance.randrange(refused) == 0 else {ALOAD: ("relaxed", "acquire"), ASTORE: ("relaxed", "release")}.get(kind, ("relaxed", "acquire", "release", "acq_rel"))
    return STEPS[kind].format(thread=number(t), place=number(p), order=chance.choice(orders), written=chance.randrange(4))


def generated(chance, begun, drained):
    """A trace of random steps, which thread 0 may begin as the theorem asks, and which may end with all stores in memory."""
    t, p = chance.randrange(1, 6), chance.randrange(1, 4)
    steps = set_up(p) if begun else []
    for _ in range(chance.choice((6, 15, 40, 110))):
        line = any_step(chance, t, p, 40)
        if not begun or line.split()[1] != "0":
            steps.append(line)
    if drained:
        machine, _ = run(trace(t, p, steps).encode())
        steps += ["drain %d" % thread for thread, queue in enumerate(machine.queues) for _ in queue]
    return trace(t, p, steps)


def by_chance():
    chance = random.Random(11)
    kinds = {"begun": (True, True), "unbegun": (False, True), "undrained": (True, False), "wild": (False, False)}
    return {"%s_%d" % (name, i): generated(chance, *kind) for name, kind in kinds.items() for i in range(10)}


# ---- all of them

def good():
    return {**GOOD, **bufferings(), **passings(), **by_chance()}


def bad():
    """Each with the position that is due."""
    for name, text in BAD.items():
        yield "bad_" + name, text.replace("|", "").encode("latin-1"), text.index("|")
