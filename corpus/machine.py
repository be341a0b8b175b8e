#!/usr/bin/env python3
"""An ordinary x86-TSO machine, whose queues are lists of stores, and a reader of traces, from the words of request Q-11 and with no proofs: the independent source of what is due of a trace.

machine.py < TRACE      the file of the candidate that a trace yields; each refused step on standard error
"""
from collections import deque
import sys

from candidates import *
from reference import Refused
from texts import ACTIONS, Lines, ORDERS, expression

ACTIONS_AT_MOST, THREADS_AT_MOST, PLACES_AT_MOST, VALUES = 64, 16, 64, 1 << 32
# bytes of the longest trace: a line that ends after them is of another form
LONGEST = 1 << 20

FIRST = "machine {t} {p}"
DRAIN = "drain {thread}"
# each action as in a text drawing, without its value read
STEPS = {kind: form.replace(" {read}", "") for kind, form in ACTIONS.items()}
EXPRESSIONS = {form: expression(form) for form in (FIRST, DRAIN, *STEPS.values())}


# ---- the machine

class Machine:
    def __init__(self, t, p):
        if t > THREADS_AT_MOST or p > PLACES_AT_MOST:
            raise Refused(15, 0)
        self.t, self.p, self.acts = t, p, []
        # stores that wait, by thread, the oldest first; writes in memory, by place, in the order of their arrival; the source of each read that has one
        self.queues, self.memory, self.sources = [deque() for _ in range(t)], [[] for _ in range(p)], {}

    def refusal(self, kind, order, thread, place, written):
        """The number of an action's refusal, or 0."""
        if kind not in (ALOAD, ASTORE, RMW) or order in (CONSUME, SEQ_CST):
            return 14
        if thread >= self.t or place >= self.p or written >= VALUES or (kind == ALOAD and written != 0):
            return 15
        if order not in {ALOAD: (RELAXED, ACQUIRE), ASTORE: (RELAXED, RELEASE), RMW: (RELAXED, ACQUIRE, RELEASE, ACQ_REL)}[kind]:
            return 15
        if len(self.acts) == ACTIONS_AT_MOST:
            return 16
        return 17 if kind == RMW and self.queues[thread] else 0

    def source(self, thread, place):
        """The newest entry for the place in the thread's queue, else who wrote last to memory; None if nobody did."""
        for store in reversed(self.queues[thread]):
            if self.acts[store][3] == place:
                return store
        return self.memory[place][-1] if self.memory[place] else None

    def act(self, kind, order, thread, place, written):
        refused = self.refusal(kind, order, thread, place, written)
        if refused:
            return refused
        number, read = len(self.acts), 0
        if kind != ASTORE:
            source = self.source(thread, place)
            if source is not None:
                self.sources[number] = source
                read = self.acts[source][5]
        self.acts.append(act(kind, thread, place, order, read, written))
        if kind == ASTORE:
            self.queues[thread].append(number)
        if kind == RMW:
            self.memory[place].append(number)
        return 0

    def drain(self, thread):
        if thread >= self.t:
            return 15
        if not self.queues[thread]:
            return 17
        store = self.queues[thread].popleft()
        self.memory[self.acts[store][3]].append(store)
        return 0

    def candidate(self):
        threads = [[a for a, x in enumerate(self.acts) if x[2] == thread] for thread in range(self.t)]
        started = [others[0] for others in threads[1:] if others]
        asw = [(threads[0][-1], first) for first in started] if threads and threads[0] else []
        return Candidate(self.t, [2] * self.p, self.acts, 2, sb=[edge for own in threads for edge in in_turn(own)], asw=asw,
                         rf=[(w, r) for r, w in self.sources.items()], mo=[edge for arrived in self.memory for edge in in_turn(arrived)])


# ---- a trace read

def fields(form, line):
    """The fields of a line of this form, numbers of 32 bits; None if it is no such line."""
    found = EXPRESSIONS[form].fullmatch(line)
    if not found:
        return None
    values = {name: ORDERS.index(word) + 1 if name == "order" else int(word) for name, word in found.groupdict().items()}
    return values if all(value < VALUES for value in values.values()) else None


def step(line):
    """What a line asks of a machine; None if it is of another form."""
    found = fields(DRAIN, line)
    if found:
        return lambda machine: machine.drain(found["thread"])
    for kind, form in STEPS.items():
        found = fields(form, line)
        if found:
            return lambda machine: machine.act(kind, found.get("order", NONE), found["thread"], found.get("place", 0), found.get("written", 0))
    return None


def read(text):
    """T, P and the steps of a trace; or Refused, with 13 and where the first line of another form starts."""
    lines = Lines(text[:LONGEST])
    first = lines.take(lambda line: fields(FIRST, line))
    steps = []
    while lines.left:
        steps.append(lines.take(step))
    if lines.at < len(text):
        raise Refused(13, lines.at)
    return first["t"], first["p"], steps


def run(text):
    """The machine after a trace, and the lines that tell of its refused steps."""
    t, p, steps = read(text)
    machine, told = Machine(t, p), []
    for count, does in enumerate(steps, 1):
        refused = does(machine)
        if refused:
            told.append("step %d refused %d 0\n" % (count, refused))
    return machine, told


def main():
    try:
        machine, told = run(sys.stdin.buffer.read())
    except Refused as e:
        sys.stderr.write("refused %d %d\n" % e.args)
        sys.exit(1)
    sys.stderr.write("".join(told))
    sys.stdout.buffer.write(machine.candidate().file())


if __name__ == "__main__":
    main()
