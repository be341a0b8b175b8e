#!/usr/bin/env python3
"""make.py: writes the corpus of the program `drawings` (its data/, args and stdout) anew, and what the program `doors` is given and due to say.

The paper's drawings A to L and its unmarked ones; each refusal 1 to 8 and 11 at several places; each rule 1 to 26 as the lowest broken; orders with a middle and without; generated drawings.
The sizes of request Q-8: files of up to 128 actions, whose rows have 16 bytes above 64, and what goes wrong in a row's high half; drawings small enough to read, spread over both halves.
Of edition 2 the names begin with final: A to L; each of its rules but 27, which is never the lowest broken; what breaks a new rule, and what all but does; rings set up by plain stores, and what has no order for want of one condition. Where edition 1 answers otherwise, the same drawing of edition 1 begins with first.
The expected reports are reference.py's. Where an order fails, asw has an edge inside one thread, the edition counts, or there are more than 64 actions, their first lines stand below, too, by the words of requests Q-4 to Q-8; for requests Q-7 and Q-8 the last line, too.
What is due of the second door's, the finder's and the writer's refusals is read off the paper and requests Q-5, Q-6, Q-8 and Q-9, below.
The half drawings of request Q-9 (halves.py) are the data of the program `halves`, the texts of request Q-10 (typed.py) those of `texts`; what is due of a text is by texts.py. The traces of request Q-11 (traces.py) are the data of `traces`; what is due of a trace is by machine.py. The examples' texts and trace are written anew, too."""
import os
import random
import shutil
import struct

from candidates import *
from finder import find
from halves import halves
from machine import run
import reference
from texts import candidate_of, read, text_of
import traces
import typed

ROOT = os.path.join(os.path.dirname(os.path.abspath(__file__)), "..")
CRATES = os.path.join(ROOT, "crates")
FILES = {}


def index(k, a, half=0):
    """Index in the store of one of the two numbers of relation k's row a, by request Q-8."""
    return 256 * k + 2 * a + half


# what is wrong in a list of two actions, or as many as are named, of one thread, at two places, and its refusal by the paper: 9, 4, 5, 3 at position 0; 6 at 128 + place or at the action; 7 at the number; 11 at the row's first number.
# The writer refuses alike, but that it is lent no order buffer, and that it is lent one for the file (WRITER).
SECOND = (
    ("nothing wrong", None),
    ("a store of 4607 numbers", (9, 0)),
    ("an order buffer of 127 bytes", (9, 0)),
    ("the edition is 0", (4, 0)),
    ("the edition is 2", None),
    ("the edition is 3", (4, 0)),
    ("the edition is 65538", (4, 0)),
    ("N is 129", (5, 0)),
    ("T is 17", (5, 0)),
    ("P is 65", (5, 0)),
    ("one action of two", (3, 0)),
    ("three actions for two", (3, 0)),
    ("one place byte of two", (3, 0)),
    ("three place bytes for two", (3, 0)),
    ("place 0 is of kind 3", (6, 128)),
    ("place 1 is of kind 255", (6, 128 + 1)),
    ("action 0 in thread T", (6, 0)),
    ("action 1 at place P", (6, 1)),
    ("sb, row 0, column N", (7, 0)),
    ("sb, row 0, column 64", (7, 1)),
    ("mo, row 1, last column", (7, index(6, 1, 1))),
    ("asw, row N", (7, index(1, 2))),
    ("asw, row N, column 64", (7, index(1, 2, 1))),
    ("mo, last row", (7, index(6, 127, 1))),
    ("after mo", None),
    ("asw, row 0, to action 1", (11, index(1, 0))),
    ("asw, row 1, to action 0", (11, index(1, 1))),
    ("asw, row 0, to itself", (11, index(1, 0))),
    ("asw, row 1, to itself", (11, index(1, 1))),
    ("asw at two places", (11, index(1, 0))),
    ("asw from thread 0 to thread 1", None),
    ("asw, row 0, to itself and thread 1", (11, index(1, 0))),
    ("asw, row 1, to thread 0 and itself", (11, index(1, 1))),
    ("64 actions: sb, row 0, column 64", (7, 1)),
    ("65 actions: sb, row 64, column 65", (7, index(0, 64, 1))),
    ("127 actions: mo, row 126, last column", (7, index(6, 126, 1))),
    ("127 actions: asw, row 127", (7, index(1, 127))),
    ("128 actions: asw, row 0, to action 64", (11, index(1, 0))),
    ("128 actions: asw, row 127, to itself", (11, index(1, 127))),
    ("128 actions: action 127 at place P", (6, 127)),
    ("9 before 4", (9, 0)),
    ("9 before 5", (9, 0)),
    ("4 before 5", (4, 0)),
    ("4 before 3", (4, 0)),
    ("4 before a short buffer", (4, 0)),
    ("5 before 3", (5, 0)),
    ("3 before 6", (3, 0)),
    ("places before actions", (6, 128 + 1)),
    ("6 before 7", (6, 1)),
    ("the lower number first", (7, index(2, 1))),
    ("the low half first", (7, index(2, 1))),
    ("the high half before the next row", (7, index(2, 1, 1))),
    ("7 before a short buffer", (7, index(2, 1, 1))),
    ("the lower row of asw first", (11, index(1, 0))),
    ("6 before 11", (6, 1)),
    ("7 of the row before 11", (7, index(1, 0))),
    ("7 of the row's high half before 11", (7, index(1, 0, 1))),
    ("7 of a later row before 11", (7, index(1, 2))),
    ("7 of mo before 11", (7, index(6, 1))),
    ("11 before a short buffer", (11, index(1, 0))),
)
WRITER = {"an order buffer of 127 bytes": None, "9 before 4": (4, 0), "9 before 5": (5, 0)}
# The finder is lent no order buffer either, takes 8 actions at most, and refuses last of all an rf that is not empty, as here.
FINDER = {**WRITER, **{what: (5, 0) for what, _ in SECOND if what.split()[1:2] == ["actions:"]}}
# what is found in rf, sc and mo of as many actions, or in cd
HALVES = (
    ("rf, sc and mo empty", 2, {}),
    ("rf, row 0, to itself", 2, {"rf": [(0, 0)]}),
    ("rf, row 1", 2, {"rf": [(1, 0)]}),
    ("sc, row 0", 2, {"sc": [(0, 0)]}),
    ("mo, row 1", 2, {"mo": [(1, 1)]}),
    ("cd, row 1", 2, {"cd": [(1, 1)]}),
    ("8 actions", 8, {}),
    ("9 actions", 9, {}),
    ("9 actions, rf", 9, {"rf": [(0, 0)]}),
)


def add(name, data):
    FILES[name] = data.file() if isinstance(data, Candidate) else data


def stores(n, **edges):
    """n plain stores of one thread."""
    return Candidate(1, [1], [act(STORE, 0, 0, written=1) for _ in range(n)], **edges)


def chain(n):
    """The same, in a row."""
    return stores(n, sb=in_turn(range(n)))


def unmarked():
    """At today's limit of 128 actions and at that of before request Q-8."""
    for n in (64, 65, 66, 100, 127, 128):
        lines("actions_%d" % n, chain(n), "consistent", " ".join(["order", *map(str, range(n))]))
    first_line("actions_129", stores(129), "refused 5 0")
    add("bit_last", chain(7))
    for n in (7, 65, 100, 127):
        refused("bit_past_%d" % n, stores(n, sb=in_turn(range(n)) + [(0, n)]), 7, 0)
    add("end_cut", chain(3).file()[:-1])
    add("byte_added", chain(3).file() + b"\0")


def with_bytes(data, *changes):
    out = bytearray(data)
    for at, value in changes:
        out[at] = value
    return bytes(out)


def refusals():
    good = letters()["D"]
    data, at = good.file(), [0]
    for record in good.records():
        at.append(at[-1] + len(record))
    add("refused_1_empty", b"")
    for k in (0, 1, 2, 7, 8, 9, 15):
        for cut in (2, 4) if at[k + 1] - at[k] > 4 else (2,):
            add("refused_1_record_%d_at_%d" % (k, cut), data[:at[k] + cut])
    add("refused_1_no_end", data[:at[15]])
    for k in (0, 1, 2, 8, 15):
        kind = data[at[k] + 2]
        add("refused_2_record_%d" % k, with_bytes(data, (at[k] + 2, kind + 1)))
        add("refused_3_record_%d" % k, with_bytes(data, (at[k], data[at[k]] + 1)))
    add("refused_2_before_3", with_bytes(data, (at[2] + 2, 9), (at[2], 9)))
    for edition in (0, 3, 258, 512, 65535):
        first_line("refused_4_edition_%d" % edition, good.of_edition(edition), "refused 4 0")
    first_line("refused_4_before_5", with_bytes(data, (4, 0), (6, 129)), "refused 4 0")
    for name, field, limit in (("n", 6, 129), ("t", 8, 17), ("p", 10, 65)):
        add("refused_5_" + name, with_bytes(data, (field, limit)))
    add("refused_6_place_byte", with_bytes(data, (at[1] + 5, 3)))
    for name, offset, value in (("kind", 4, 0), ("kind_9", 4, 9), ("order_of_plain", 5, 1), ("thread", 6, 3), ("place", 8, 2), ("zero", 10, 1), ("read_of_store", 12, 1)):
        add("refused_6_action_" + name, with_bytes(data, (at[2] + offset, value)))
    add("refused_6_order_7", with_bytes(data, (at[3] + 5, 7)))
    add("refused_6_order_0", with_bytes(data, (at[3] + 5, 0)))
    fence = Candidate(1, [2], [act(FENCE, 0, 0, SEQ_CST)])
    add("refused_6_fence_place", fence)
    add("refused_6_written_of_load", with_bytes(data, (at[6] + 16, 1)))
    add("refused_6_relation_number", with_bytes(data, (at[10] + 4, 6)))
    for k in (8, 11, 14):
        add("refused_7_relation_%d" % (k - 8), with_bytes(data, (at[k] + 6 + 8 * 5, 64)))
        add("refused_7_high_bit_%d" % (k - 8), with_bytes(data, (at[k] + 6 + 7, 128)))
    add("refused_8_many", data + b"\5" * 5000)


def by_hand():
    """The rules that random changes hardly reach, and the drawing of request Q-3, which passes."""
    add("rule_02_load_at_mutex", Candidate(1, [0], [act(LOAD, 0, 0)]))
    add("rule_02_atomic_at_plain", Candidate(1, [1], [act(ASTORE, 0, 0, RELAXED)]))
    add("rule_02_lock_at_atomic", Candidate(1, [2, 1], [act(STORE, 0, 1), act(LOCK, 0, 0)]))
    add("rule_07_unlock_alone", Candidate(1, [0], [act(UNLOCK, 0, 0)]))
    add("rule_07_other_thread", Candidate(2, [0], [act(LOCK, 0, 0), act(UNLOCK, 1, 0)], sc=[(0, 1)]))
    add("rule_08_two_locks", Candidate(2, [0], [act(LOCK, 0, 0), act(LOCK, 1, 0)], sc=[(0, 1)]))
    start = act(ASTORE, 0, 0, RELAXED)
    write, read = act(ASTORE, 1, 0, RELAXED, written=1), act(ALOAD, 2, 0, RELAXED)
    strong_write, strong_read = act(ASTORE, 1, 0, SEQ_CST, written=1), act(ALOAD, 2, 0, SEQ_CST)
    f1, f2 = act(FENCE, 1, order=SEQ_CST), act(FENCE, 2, order=SEQ_CST)
    add("rule_16_fences", Candidate(3, [2], [start, write, f1, f2, act(ASTORE, 2, 0, RELAXED, written=2)],
                                    sb=[(1, 2), (3, 4)], asw=[(0, 1), (0, 3)], sc=[(2, 3)], mo=in_turn([0, 4, 1])))
    add("rule_24_fence_before_read", Candidate(3, [2], [start, strong_write, f2, read], sb=[(2, 3)], asw=[(0, 1), (0, 2)], sc=[(1, 2)], mo=[(0, 1)], rf=[(0, 3)]))
    add("rule_25_fence_after_write", Candidate(3, [2], [start, write, f1, strong_read], sb=[(1, 2)], asw=[(0, 1), (0, 3)], sc=[(2, 3)], mo=[(0, 1)], rf=[(0, 3)]))
    add("rule_26_two_fences", Candidate(3, [2], [start, write, f1, f2, read], sb=[(1, 2), (3, 4)], asw=[(0, 1), (0, 3)], sc=[(2, 3)], mo=[(0, 1)], rf=[(0, 4)]))
    add("rule_26_two_places", Candidate(3, [2, 2], [act(STORE, 0, 0), act(STORE, 0, 1), write, f1, f2, act(ALOAD, 2, 1, RELAXED)],
                                        sb=[(0, 1), (2, 3), (4, 5)], asw=[(1, 2), (1, 4)], mo=[(0, 2)], rf=[(1, 5)], sc=[(3, 4)]))


def fences(orders, sc):
    """Fences of these orders, of one thread."""
    return Candidate(1, [], [act(FENCE, 0, order=order) for order in orders], sc=sc)


def atomic_writes(places, mo):
    """A relaxed write at each of these places, of one thread."""
    return Candidate(1, [2, 2], [act(ASTORE, 0, p, RELAXED, written=1) for p in places], mo=mo)


def without(edge, edges):
    return [e for e in edges if e != edge]


def first_line(name, data, line):
    """Adds a drawing whose report is due to start with this line."""
    add(name, data)
    assert reference.report(FILES[name]).split("\n")[0] == line, name


def middles():
    """Rules 4, 6, 10 and 14 where an order fails, by a middle or otherwise: the rule, the least pair, and the middle if there is one."""
    # sb lacks 1 to 2, with both 0 and 3 between
    first_line("rule_04_two_middles", stores(4, sb=without((1, 2), in_turn([1, 3, 0, 2]))), "inconsistent 4 1 2 0")
    # dd lacks 0 to 3, with 2 between, and cd, with 1; sb has it
    first_line("rule_04_dd_decides", stores(4, sb=in_turn(range(4)), dd=[(0, 2), (2, 3)], cd=[(0, 1), (1, 3)]), "inconsistent 4 0 3 2")
    # sb lacks 0 to 3, with 2 between, and cd, with 1
    first_line("rule_04_sb_decides", stores(4, sb=[(0, 2), (2, 3)], cd=[(0, 1), (1, 3)]), "inconsistent 4 0 3 2")
    # sb lacks 1 to 3, with 2 between; cd 0 to 2, with 3
    first_line("rule_04_least_pair", stores(4, sb=[(1, 2), (2, 3)], cd=[(0, 3), (3, 2)]), "inconsistent 4 0 2 3")
    # sb has 0 to 0; dd lacks it, with 1 between
    first_line("rule_04_itself", stores(2, sb=[(0, 0), (0, 1), (1, 0), (1, 1)], dd=[(0, 1), (1, 0)]), "inconsistent 4 0 0")
    first_line("rule_04_there_and_back", stores(2, sb=[(0, 1), (1, 0)]), "inconsistent 4 0 0 1")
    lock, unlock, other = act(LOCK, 0, 0), act(UNLOCK, 0, 0), act(LOCK, 1, 1)
    first_line("rule_06_two_middles", Candidate(1, [0], [lock, unlock, lock, unlock], sc=without((0, 3), in_turn(range(4)))), "inconsistent 6 0 3 1")
    # sc lacks 0 to 3, with 1 and 2 between; 1 is at the other mutex
    first_line("rule_06_other_mutex_less", Candidate(2, [0, 0], [lock, other, unlock, lock], sc=without((0, 3), in_turn(range(4)))), "inconsistent 6 0 3 2")
    # sc lacks 0 to 2, with only the other mutex's 1 between
    first_line("rule_06_other_mutex_alone", Candidate(2, [0, 0], [lock, other, lock], sc=[(0, 1), (1, 2)]), "inconsistent 6 0 2")
    first_line("rule_06_there_and_back", Candidate(1, [0], [lock, unlock], sc=[(0, 1), (1, 0)]), "inconsistent 6 0 0 1")
    first_line("rule_10_two_middles", fences([SEQ_CST] * 4, without((1, 2), in_turn([1, 3, 0, 2]))), "inconsistent 10 1 2 0")
    first_line("rule_10_last_middle", fences([SEQ_CST] * 64, without((61, 62), in_turn([*range(62), 63, 62]))), "inconsistent 10 61 62 63")
    # the middle is no SC action
    first_line("rule_10_middle_outside", fences([SEQ_CST, SEQ_CST, ACQ_REL], [(0, 2), (2, 1)]), "inconsistent 10 0 1 2")
    # the edge 0 to 1 leaves the SC actions; 0 to 2 to 1 is there, too
    first_line("rule_10_end_outside", fences([SEQ_CST, ACQ_REL, SEQ_CST], in_turn([0, 2, 1])), "inconsistent 10 0 1")
    # sc lacks 0 to 1 and 1 to 0, with nothing between
    first_line("rule_10_unordered", fences([SEQ_CST] * 3, [(0, 2), (1, 2)]), "inconsistent 10 0 1")
    first_line("rule_10_there_and_back", fences([SEQ_CST] * 2, [(0, 1), (1, 0)]), "inconsistent 10 0 0 1")
    # sc lacks 0 to 2, with 1 between, and has 2 to 0
    first_line("rule_10_round", fences([SEQ_CST] * 3, [(0, 1), (1, 2), (2, 0)]), "inconsistent 10 0 2 1")
    first_line("rule_14_two_middles", atomic_writes([0] * 4, without((1, 2), in_turn([1, 3, 0, 2]))), "inconsistent 14 1 2 0")
    first_line("rule_14_second_place", atomic_writes([0, 1, 0, 1, 1], [(0, 2), (1, 3), (3, 4)]), "inconsistent 14 1 4 3")
    first_line("rule_14_unordered", atomic_writes([0] * 3, [(0, 2), (1, 2)]), "inconsistent 14 0 1")
    first_line("rule_14_there_and_back", atomic_writes([0] * 2, [(0, 1), (1, 0)]), "inconsistent 14 0 0 1")


def drawing_d(**edges):
    """Drawing D, of threads 0 0 1 1 2 2, with these edges added."""
    d = letters()["D"]
    for name, more in edges.items():
        d.edges[NAMES.index(name)] |= set(more)
    return d


def stores_of(threads, places, asw):
    """A plain store of each of these threads, at the place beside it."""
    return Candidate(16, [1] * (1 + max(places)), [act(STORE, t, p, written=1) for t, p in zip(threads, places)], asw=asw)


def relation_at(n, p, k):
    """First byte of relation k's record, by the paper's table: before it stand the header, p places, n actions, and k relations of n rows."""
    return (4 + 8) + (4 + p) + n * (4 + 16) + k * (4 + 2 + n * reference.row_bytes(n))


def refused(name, data, number, k):
    """Adds a drawing that is due to be refused with this number at relation k's record."""
    n, p = (len(data.acts), len(data.places)) if isinstance(data, Candidate) else (data[6], data[10])
    first_line(name, data, "refused %d %d" % (number, relation_at(n, p, k)))


def started_inside():
    """Refusal 11: an edge of asw, relation 1, inside one thread."""
    refused("refused_11_one_action", stores(1, asw=[(0, 0)]), 11, 1)
    refused("refused_11_one_thread", stores(3, sb=in_turn(range(3)), asw=[(0, 2)]), 11, 1)
    refused("refused_11_first_row", drawing_d(asw=[(0, 1)]), 11, 1)
    refused("refused_11_middle_row", drawing_d(asw=[(2, 3)]), 11, 1)
    refused("refused_11_last_row", drawing_d(asw=[(5, 4)]), 11, 1)
    refused("refused_11_itself", drawing_d(asw=[(3, 3)]), 11, 1)
    refused("refused_11_last_itself", drawing_d(asw=[(5, 5)]), 11, 1)
    refused("refused_11_two_rows", drawing_d(asw=[(2, 3), (4, 5)]), 11, 1)
    # the row has edges to other threads, too: D's 1 to 2 and 1 to 4 after it, or two before it
    refused("refused_11_before_others", drawing_d(asw=[(1, 0)]), 11, 1)
    refused("refused_11_after_others", stores_of([0, 1, 2, 0], [0] * 4, [(0, 1), (0, 2), (0, 3)]), 11, 1)
    # threads are compared, not places, and not the numbers of actions
    refused("refused_11_two_places", stores_of([0, 0], [0, 1], [(0, 1)]), 11, 1)
    first_line("asw_one_place", stores_of([0, 1], [0, 0], [(0, 1)]), "consistent")
    first_line("asw_thread_is_number", stores_of([1, 0], [0, 0], [(0, 1)]), "consistent")
    fence = lambda thread: act(FENCE, thread, order=RELAXED)
    refused("refused_11_fences", Candidate(2, [], [fence(1), fence(1)], asw=[(0, 1)]), 11, 1)
    first_line("asw_fences", Candidate(2, [], [fence(0), fence(1)], asw=[(0, 1)]), "consistent")
    # the longest file of either width of row: first and last action are of thread 0, the rest of others; every edge between threads, so that 0 to 1 to 0 breaks rule 9
    for n in (64, 128):
        threads, last = [0] + [1 + a % 15 for a in range(n - 2)] + [0], n - 1
        across = [(a, b) for a in range(n) for b in range(n) if threads[a] != threads[b]]
        longest = lambda *more: stores_of(threads, [a % 64 for a in range(n)], across + list(more))
        first_line("asw_all_across_%d" % n, longest(), "inconsistent 9 0 0")
        refused("refused_11_last_to_first_%d" % n, longest((last, 0)), 11, 1)
        refused("refused_11_first_to_last_%d" % n, longest((0, last)), 11, 1)
    # in every other relation such an edge is taken, and left to the rules: 3 to 2, which are of one thread, and 3 to 3
    first_line("inside_cd", drawing_d(cd=[(3, 2)]), "consistent")
    for name, back, itself in (("sb", "4 2 2 3", "4 3 3"), ("dd", "5 3 2", "4 3 3"), ("rf", "17 3 2", "17 3 3"), ("sc", "10 3 2", "10 3 3"), ("mo", "13 3 2", "13 3 3")):
        first_line("inside_" + name, drawing_d(**{name: [(3, 2)]}), "inconsistent " + back)
        first_line("itself_" + name, drawing_d(**{name: [(3, 3)]}), "inconsistent " + itself)


def beside_11():
    """Of refusal 11 and another the one that is tested first: record by record, 11 after 7."""
    inside = drawing_d(asw=[(2, 3)]).file()
    asw, dd = relation_at(6, 2, 1), relation_at(6, 2, 2)
    # column 6 is N
    refused("refused_7_before_11_row", drawing_d(asw=[(2, 3), (2, 6)]), 7, 1)
    refused("refused_7_before_11_earlier_row", drawing_d(asw=[(2, 3), (0, 6)]), 7, 1)
    refused("refused_7_before_11_later_row", drawing_d(asw=[(2, 3), (5, 6)]), 7, 1)
    refused("refused_7_before_11_sb", drawing_d(sb=[(5, 6)], asw=[(2, 3)]), 7, 0)
    refused("refused_11_before_7_dd", drawing_d(asw=[(2, 3)], dd=[(0, 6)]), 11, 1)
    refused("refused_11_before_7_mo", drawing_d(asw=[(5, 5)], mo=[(0, 63)]), 11, 1)
    refused("refused_6_before_11_number", with_bytes(inside, (asw + 4, 2)), 6, 1)
    refused("refused_11_before_6_number", with_bytes(inside, (dd + 4, 1)), 11, 1)
    # the first action, after 12 bytes of header and 6 of places, is of kind 9
    first_line("refused_6_before_11_action", with_bytes(inside, (18 + 4, 9)), "refused 6 18")
    refused("refused_1_before_11", inside[:dd - 1], 1, 1)
    refused("refused_11_before_1", inside[:dd], 11, 1)
    refused("refused_11_before_2", with_bytes(inside, (dd + 2, 5)), 11, 1)
    refused("refused_11_before_3", with_bytes(inside, (dd, 0)), 11, 1)
    refused("refused_11_before_8", inside + b"\0", 11, 1)


def by_chance():
    """Generated drawings; and, for each rule, the first small change of one that breaks it before any other."""
    rng = random.Random(1105)
    wanted = {k: 1 for k in range(1, 27) if k not in (2, 7, 8, 16, 24, 25, 26)}
    while any(wanted.values()):
        c = generated(rng, rng.randint(9, 16))
        for _ in range(rng.randint(1, 3)):
            c = disturbed(rng, c)
        line = reference.report(c.file()).split("\n")[0].split()
        k = int(line[1]) if line[0] == "inconsistent" else 0
        if wanted.get(k):
            add("rule_%02d_changed" % k, c)
            wanted[k] -= 1
    for i in range(4):
        add("generated_%d" % i, generated(rng, 64))
        add("generated_seq_cst_%d" % i, generated(rng, 64, seq_cst=True))
        add("disturbed_%d" % i, disturbed(rng, generated(rng, 64)))


def lines(name, data, first, last):
    """Adds a drawing whose report is due to start and to end with these lines."""
    first_line(name, data, first)
    assert reference.report(FILES[name]).split("\n")[-2] == last, name


# ---- edition 2

# by the rules of request Q-6: the first line and the last
FINAL_LETTERS = {
    "A": ("consistent", "order"),
    "B": ("consistent", "no order"),
    "C": ("inconsistent 29 2 5", "no order"),
    "D": ("consistent", "no order"),
    "E": ("consistent", "no order"),
    "F": ("inconsistent 29 2 5", "no order"),
    "G": ("inconsistent 32 0 5", "no order"),
    "H": ("inconsistent 32 0 5", "no order"),
    "I": ("consistent", "order 0 1 2 3 4 5 6"),
    "J": ("inconsistent 7 3 3", "no order"),
    "K": ("consistent", "order 1 0"),
    "L": ("inconsistent 31 0 2", "no order"),
}
# a drawing for each rule that edition 1 has, too, but for 7, which is J's; and one that passes
SHARED = ("rule_01_changed", "rule_02_load_at_mutex", "rule_03_changed", "rule_04_two_middles", "inside_dd", "rule_06_two_middles", "rule_08_two_locks", "rule_09_changed", "rule_10_two_middles", "rule_11_changed", "rule_12_changed",
          "inside_mo", "rule_14_second_place", "rule_16_fences", "inside_rf", "rule_18_changed", "rule_24_fence_before_read", "rule_25_fence_after_write", "rule_26_two_fences", "rule_26_two_places")
# those that go through both doors
FINAL_DOORS = ["final_" + name for name in ("H", "I", "28_source_unseen", "29_hidden", "30_source_later", "31_no_source", "32_write_between", "32_hb_between", "33_hb_against_mo", "34_two_seen", "35_write_between", "36_reads_against_mo",
                                            "ring", "ring_loose", "generated_0", "generated_seq_cst_0", "disturbed_0", "plain_first_0", "turns_128", "messages_down", "messages_shuffled", "generated_100_actions", "generated_128_actions")]


def final_letters():
    for name, (first, last) in FINAL_LETTERS.items():
        lines("final_" + name, letters()[name].of_edition(2), first, last)


def final_shared():
    """What edition 1 says by a rule that both editions have, edition 2 says."""
    for name in SHARED:
        first_line("final_" + name, with_bytes(FILES[name], (4, 2)), reference.report(FILES[name]).split("\n")[0])


def final_refusals():
    """Refusal 4 in its turn, and the others in a file of edition 2."""
    good = drawing_d().of_edition(2)
    first_line("refused_1_before_4", drawing_d().of_edition(3).file()[:11], "refused 1 0")
    first_line("refused_5_final", with_bytes(good.file(), (6, 129)), "refused 5 0")
    first_line("refused_6_final", with_bytes(good.file(), (18 + 4, 9)), "refused 6 18")
    refused("refused_7_final", drawing_d(mo=[(0, 6)]).of_edition(2), 7, 6)
    first_line("refused_8_final", good.file() + b"\0", "refused 8 %d" % len(good.file()))
    refused("refused_11_final", drawing_d(asw=[(2, 3)]).of_edition(2), 11, 1)


# writes, reads, read-modify-writes and fences by letter: relaxed, S seq_cst, P plain
WORDS = {"W": (ASTORE, RELAXED), "R": (ALOAD, RELAXED), "U": (RMW, RELAXED), "SW": (ASTORE, SEQ_CST), "SR": (ALOAD, SEQ_CST), "SU": (RMW, SEQ_CST), "SF": (FENCE, SEQ_CST), "PW": (STORE, NONE), "PR": (LOAD, NONE)}
# by rule the first drawing below that breaks it, and its pair
BREAKS = {}


def at_place(place, words, **edges):
    """Actions at one place of this kind, each a thread and a letter, such as 0W 1R; every value is 0, so that any of the writes may feed any of the reads."""
    acts = []
    for word in words.split():
        kind, order = WORDS[word[1:]]
        acts.append(act(kind, int(word[0]), 65535 if kind == FENCE else 0, order))
    return Candidate(4, [place], acts, **edges)


def at_plain(words, **edges):
    return at_place(1, words, **edges)


def at_atomic(words, **edges):
    return at_place(2, words, **edges)


def beside(one, other, first=None):
    """Both candidates as one, the second one's actions and places after those of the first; and its threads, unless another number for its first thread is given."""
    n, t, p = len(one.acts), one.t if first is None else first, len(one.places)
    moved = [[kind, order, t + thread, place if kind == FENCE else p + place, *values] for kind, order, thread, place, *values in other.acts]
    both = Candidate(max(one.t, t + other.t), one.places + other.places, one.acts + moved)
    both.edges = [e | {(n + a, n + b) for a, b in f} for e, f in zip(one.edges, other.edges)]
    return both


def final(name, candidate, line):
    first_line("final_" + name, candidate.of_edition(2), line)
    if line.startswith("inconsistent"):
        rule, *pair = map(int, line.split()[1:])
        BREAKS.setdefault(rule, (candidate, pair))


def in_both(name, candidate, line_1, line_2):
    """Adds a drawing of each edition, to which they answer otherwise."""
    first_line("first_" + name, candidate, line_1)
    final(name, candidate, line_2)


def final_sources():
    """Rules 28 to 30, and beside each what passes with one edge changed."""
    # 28: rf 0 to 1, or vse by asw 0 to 1, or both, or neither
    in_both("28_source_unseen", at_atomic("0W 1R", rf=[(0, 1)]), "inconsistent 20 1 1", "inconsistent 28 1 1")
    final("28_seen_no_source", at_atomic("0W 1R", asw=[(0, 1)]), "inconsistent 28 1 1")
    final("28_source_seen", at_atomic("0W 1R", asw=[(0, 1)], rf=[(0, 1)]), "consistent")
    final("28_neither", at_atomic("0W 1R"), "consistent")
    final("28_plain", at_plain("0PW 1PR", rf=[(0, 1)]), "inconsistent 28 1 1")
    # 29: 1 hides 0 from the load
    final("29_hidden", at_plain("0PW 0PW 0PR", sb=in_turn(range(3)), rf=[(0, 2)]), "inconsistent 29 0 2")
    lines("final_29_last", at_plain("0PW 0PW 0PR", sb=in_turn(range(3)), rf=[(1, 2)]).of_edition(2), "consistent", "order 0 1 2")
    # 30: the load sees 0, and comes before 2; or neither comes before the other
    before, beside_it = [(0, 1), (1, 2)], [(0, 1), (0, 2)]
    in_both("30_source_later", at_atomic("0W 1R 2W", asw=before, mo=[(0, 2)], rf=[(2, 1)]), "inconsistent 20 1 1", "inconsistent 30 2 1")
    final("30_source_earlier", at_atomic("0W 1R 2W", asw=before, mo=[(0, 2)], rf=[(0, 1)]), "consistent")
    final("30_source_beside", at_atomic("0W 1R 2W", asw=beside_it, mo=[(0, 2)], rf=[(2, 1)]), "consistent")
    # it is the place that counts, not the kind of read
    final("30_plain_load", at_atomic("0W 1PR 2W", asw=before, mo=[(0, 2)], rf=[(2, 1)]), "inconsistent 30 2 1")
    final("30_plain_load_beside", at_atomic("0W 1PR 2W", asw=beside_it, mo=[(0, 2)], rf=[(2, 1)]), "consistent")
    final("30_rmw", at_atomic("0W 1U 2W", asw=before, mo=in_turn(range(3)), rf=[(2, 1)]), "inconsistent 30 2 1")


def final_rmw():
    """Rule 31: the source is the immediate predecessor in mo, and that is the source; L has another source."""
    in_both("31_no_source", at_atomic("0W 1U", mo=[(0, 1)]), "consistent", "inconsistent 31 0 1")
    in_both("31_predecessor", at_atomic("0W 1U", mo=[(0, 1)], rf=[(0, 1)]), "inconsistent 20 1 1", "consistent")
    final("31_source_after", at_atomic("0W 1U", mo=[(1, 0)], rf=[(0, 1)]), "inconsistent 31 0 1")
    final("31_first", at_atomic("0W 1U", mo=[(1, 0)]), "consistent")
    # 0 stands between the source and 2, and is the least
    final("31_predecessor_is_least", at_atomic("0W 1W 2U", mo=in_turn([1, 0, 2]), rf=[(1, 2)]), "inconsistent 31 0 2")


def final_seq_cst():
    """Rule 32, both halves; G breaks the first and H the second."""
    started = [(0, 1), (0, 2)]
    two_writes = lambda sc: at_atomic("0SW 1SW 2SR", asw=started, mo=[(0, 1)], rf=[(0, 2)], sc=in_turn(sc)).of_edition(2)
    lines("final_32_write_between", two_writes([0, 1, 2]), "inconsistent 32 0 2", "no order")
    lines("final_32_write_after", two_writes([0, 2, 1]), "consistent", "order 0 2 1")
    # write and read of one thread, neither first
    unsequenced = lambda sc: at_atomic("0W 1SW 1SR", asw=started, mo=[(0, 1)], rf=[(1, 2)], sc=sc)
    final("32_source_after", unsequenced([(2, 1)]), "inconsistent 32 1 2")
    final("32_source_before", unsequenced([(1, 2)]), "consistent")
    # the source is not seq_cst: 0 hb 1, 1 sc 2
    relaxed_first = lambda asw, sc: at_atomic("0W 1SW 2SR", asw=asw, mo=[(0, 1)], rf=[(0, 2)], sc=sc)
    in_both("32_hb_between", relaxed_first(started, [(1, 2)]), "consistent", "inconsistent 32 0 2")
    final("32_hb_after", relaxed_first(started, [(2, 1)]), "consistent")
    final("32_no_hb", relaxed_first([(0, 2)], [(1, 2)]), "consistent")
    # the same with a read-modify-write; 0 hb 1 against mo breaks 33, too
    final("32_rmw", at_atomic("0W 1SW 2SU", asw=[(0, 1)], mo=in_turn([1, 0, 2]), rf=[(0, 2)], sc=[(1, 2)]), "inconsistent 32 0 2")


def final_coherence():
    """Rules 33 to 36: the four shapes of source document 004."""
    in_both("33_hb_against_mo", at_atomic("0W 1W", asw=[(0, 1)], mo=[(1, 0)]), "inconsistent 15 0 1", "inconsistent 33 0 1")
    final("33_hb_with_mo", at_atomic("0W 1W", asw=[(0, 1)], mo=[(0, 1)]), "consistent")
    # the load sees two writes, and takes the earlier or the later in mo
    two_seen = lambda source: at_atomic("0W 1W 2R", asw=[(0, 2), (1, 2)], mo=[(0, 1)], rf=[(source, 2)])
    in_both("34_two_seen", two_seen(0), "consistent", "inconsistent 34 0 2")
    final("34_last_seen", two_seen(1), "consistent")
    final("34_hidden", at_atomic("0W 0PW 0R", sb=in_turn(range(3)), mo=[(0, 1)], rf=[(0, 2)]), "inconsistent 34 0 2")
    # 1 comes before 2 and takes from 3, which is after 2 in mo or before it
    read_ahead = lambda mo: at_atomic("0W 1R 2W 3W", asw=[(0, 1), (1, 2), (0, 3)], rf=[(3, 1)], mo=in_turn(mo))
    in_both("35_write_between", read_ahead([0, 2, 3]), "inconsistent 20 1 1", "inconsistent 35 3 1")
    final("35_write_after", read_ahead([0, 3, 2]), "consistent")
    # 3 comes after 2, or both only after 0
    two_reads = lambda before_3, *sources: at_atomic("0W 1W 2R 3R", asw=[(0, 2), (before_3, 3)], mo=[(0, 1)], rf=zip(sources, (2, 3)))
    in_both("36_reads_against_mo", two_reads(2, 1, 0), "inconsistent 21 2 3", "inconsistent 36 2 3")
    final("36_reads_with_mo", two_reads(2, 0, 1), "consistent")
    final("36_reads_beside", two_reads(0, 1, 0), "consistent")


def passes(name, candidate, last):
    """Adds a drawing of edition 2 that passes, with the last line that is due."""
    lines("final_" + name, candidate.of_edition(2), "consistent", last)


def final_rings():
    """Request Q-7: plain accesses at atomic places, and the order that edition 2 gives."""
    started = in_turn(range(4))
    lines("first_ring", ring(started), "consistent", "no order")
    passes("ring", ring(started), "order 0 1 2 3 4 5")
    passes("ring_loose", ring([(0, 1)] + in_turn([0, 2, 3])), "no order")
    passes("ring_read_after", ring(started, [act(LOAD, 2, 1, read=1)], asw=[(5, 6)], rf=[(3, 6)]), "order 0 1 2 3 4 5 6")
    # H, but 5 reads what 2 writes
    mended = letters()["H"]
    mended.edges[4], mended.acts[5][4] = {(1, 3), (2, 5)}, 1
    lines("first_H_mended", mended, "consistent", "no order")
    passes("H_mended", mended, "order 0 1 2 3 4 5")
    # sc alone puts 3 after 2, so that 1 comes between 3 and its source
    stale = [act(STORE, 0, 0), act(STORE, 0, 0, written=1), act(ASTORE, 0, 1, SEQ_CST, written=1), act(ALOAD, 0, 0, SEQ_CST)]
    passes("stale_in_thread", Candidate(1, [2, 2], stale, sb=in_turn([0, 1, 2]) + [(0, 3)], rf=[(0, 3)], sc=[(2, 3)], mo=[(0, 1)]), "no order")


def final_proviso():
    """Two accesses of one thread after a plain first write, one of them a write and one of them plain: sequenced or not."""
    two = lambda words, **edges: at_atomic("0PW " + words, asw=[(0, 1), (0, 2)], **edges)
    load_store = lambda sb, source: two("1PR 1SW", sb=sb, rf=[(source, 1)], mo=[(0, 2)])
    passes("loose_load_store", load_store([], 0), "no order")
    passes("load_then_store", load_store([(1, 2)], 0), "order 0 1 2")
    passes("store_then_load", load_store([(2, 1)], 2), "order 0 2 1")
    store_load = lambda sb, source: two("1PW 1SR", sb=sb, rf=[(source, 2)], mo=[(0, 1)])
    passes("loose_store_load", store_load([], 0), "no order")
    passes("store_before_load", store_load([(1, 2)], 1), "order 0 1 2")
    passes("load_before_store", store_load([(2, 1)], 0), "order 0 2 1")
    passes("loose_store_rmw", two("1PW 1SU", rf=[(1, 2)], mo=in_turn(range(3))), "no order")
    passes("loose_load_rmw", two("1PR 1SU", rf=[(0, 1), (0, 2)], mo=[(0, 2)]), "no order")
    # it asks of sb: hb by way of another thread is not enough
    passes("loose_in_hb", Candidate(2, [2, 1], [act(STORE, 0, 0), act(STORE, 1, 1), act(ALOAD, 0, 0, SEQ_CST)], asw=[(0, 1), (1, 2)], rf=[(0, 2)]), "no order")
    # it does not ask of two loads, of two atomic accesses, of two places
    passes("two_loads", two("1PR 1SR", rf=[(0, 1), (0, 2)]), "order 0 1 2")
    passes("two_atomics", two("1SW 1SR", rf=[(1, 2)], sc=[(1, 2)], mo=[(0, 1)]), "order 0 1 2")
    passes("two_places", Candidate(2, [2, 2], [act(STORE, 0, 0), act(STORE, 1, 1), act(ASTORE, 1, 0, SEQ_CST)], asw=[(0, 1), (0, 2)], mo=[(0, 2)]), "order 0 1 2")


def final_withheld():
    """What else withholds the order: an atomic action of another order, a fence, a race of either kind, a read of nothing."""
    passes("relaxed_store", at_atomic("0PW 1W", asw=[(0, 1)], mo=[(0, 1)]), "no order")
    passes("relaxed_load", at_atomic("0PW 1R", asw=[(0, 1)], rf=[(0, 1)]), "no order")
    passes("fence", at_atomic("0PW 0SF", sb=[(0, 1)]), "no order")
    passes("data_race", at_atomic("0PW 1PW 2SR", asw=[(0, 1), (0, 2)], rf=[(0, 2)], mo=[(0, 1)]), "no order")
    passes("unsequenced_race", at_atomic("0PW 0PW", mo=[(0, 1)]), "no order")
    passes("read_of_nothing", at_atomic("0PR"), "no order")
    passes("plain_alone", at_atomic("0PW 0PR", sb=[(0, 1)], rf=[(0, 1)]), "order 0 1")


def final_in_turn():
    """Of two rules broken the lower, though its pair is the greater."""
    in_both("24_before_34", at_atomic("0W 1SW 2SF 2R", sb=[(2, 3)], asw=[(0, 1), (1, 2)], sc=[(1, 2)], mo=[(0, 1)], rf=[(0, 3)]), "inconsistent 20 3 3", "inconsistent 24 0 3")
    for k in range(28, 36):
        (lower, (a, b)), (higher, _) = BREAKS[k], BREAKS[k + 1]
        n = len(higher.acts)
        final("%d_before_%d" % (k, k + 1), beside(higher, lower), "inconsistent %d %d %d" % (k, n + a, n + b))


def final_by_chance():
    """Generated drawings of edition 2: passed, passed with an order, and broken by a rule that only this edition has."""
    rng, broken = random.Random(2011), []
    for i in range(2):
        final("generated_%d" % i, generated(rng, 64), "consistent")
        final("generated_seq_cst_%d" % i, generated(rng, 64, seq_cst=True), "consistent")
        assert "\norder " in reference.report(FILES["final_generated_seq_cst_%d" % i])
    while len(broken) < 3:
        c = disturbed(rng, generated(rng, 64).of_edition(2))
        line = reference.report(c.file()).split("\n")[0]
        if line.startswith("inconsistent") and int(line.split()[1]) not in [*range(27), *broken]:
            final("disturbed_%d" % len(broken), c, line)
            broken.append(int(line.split()[1]))
    for i in range(2):
        c = generated(rng, 64, seq_cst=True, plain_first=True)
        lines("first_plain_first_%d" % i, c, "consistent", "no order")
        final("plain_first_%d" % i, c, "consistent")
        assert "\norder " in reference.report(FILES["final_plain_first_%d" % i])


# ---- both halves of a row

def wide_refusals():
    """Refusals above 64 actions, and 3 beside them."""
    # action 64 of 65, after 12 bytes of header, 5 of places and 64 actions, is of kind 9
    first_line("refused_6_action_64", with_bytes(chain(65).file(), (1297 + 4, 9)), "refused 6 1297")
    # one relation, without edges, has rows of the other width
    for n, width, k in ((64, 16, 0), (65, 8, 6)):
        records = list(stores(n).records())
        records[-8 + k] = struct.pack("<HHH", 2 + n * width, 4, k) + bytes(n * width)
        refused("refused_3_%d_actions_rows_of_%d" % (n, width), b"".join(records), 3, k)
    # the file ends after the low half of asw's last row
    refused("refused_1_half_row", chain(65).file()[:relation_at(65, 1, 2) - 8], 1, 1)
    # the last column of mo's last row
    refused("refused_7_last_bit", stores(65, mo=[(64, 127)]), 7, 6)
    # in asw 64 to itself; and column 65, too
    refused("refused_11_itself_64", stores(65, asw=[(64, 64)]), 11, 1)
    refused("refused_7_before_11_high", stores(65, asw=[(0, 65), (64, 64)]), 7, 1)
    # the longest file of all
    longest = FILES["asw_all_across_128"]
    assert len(longest) == 17022
    first_line("longest_cut", longest[:-1], "refused 1 17018")
    first_line("longest_and_one", longest + b"\0", "refused 8 17022")


def spread(n, numbers, small):
    """The small candidate's actions at these numbers out of n; at the others plain stores of another thread at another place, in a row."""
    number = [*numbers, *(a for a in range(n) if a not in numbers)]
    both = beside(small, chain(n - len(numbers)))
    out = Candidate(both.t, both.places, [both.acts[number.index(a)] for a in range(n)])
    out.edges = [{(number[a], number[b]) for a, b in edges} for edges in both.edges]
    return out


# 64 0 65 1 .. 127 63: every step goes to the other half
TURNS = [a for low in range(64) for a in (64 + low, low)]


def wide_orders():
    """The serial order through both halves."""
    listed = lambda numbers: " ".join(["order", *map(str, numbers)])
    passes("turns_128", stores(128, sb=in_turn(TURNS)), listed(TURNS))
    # I against its numbers: thread 1 in the high half, thread 2 in the low one
    order = [127, 102, 101, 100, 63, 62, 61]
    lines("I_128", spread(128, order, letters()["I"]), "consistent", listed([*range(61), *range(64, 100), *range(103, 127), *order]))
    # one fence is enough to withhold it
    lines("fence_65", spread(65, [64], fences([RELAXED], [])), "consistent", "no order")


def wide_pairs():
    """Rules broken at a pair over both halves, or with a middle in the other one."""
    # 5 and 64 are atomic stores of a plain place
    first_line("rule_02_least_row", spread(65, [64, 5], at_plain("0W 1W")), "inconsistent 2 5 5")
    # cd from 5 to another thread's 30 and 64
    first_line("rule_03_least_column", spread(65, [5, 64, 30], at_plain("0PW 1PW 1PW", cd=[(0, 1), (0, 2)])), "inconsistent 3 5 30")
    # cd lacks 1 to 2, with both 64 and 100 between; or 127 to 0, with 63 and 64
    lacking = stores(4, cd=[(0, 1), (1, 3), (0, 2), (2, 3)])
    first_line("rule_04_middle_64", spread(128, [1, 100, 64, 2], lacking), "inconsistent 4 1 2 64")
    first_line("rule_04_middle_63", spread(128, [127, 64, 63, 0], lacking), "inconsistent 4 127 0 63")
    first_line("rule_06_middle_64", Candidate(1, [0], [act(LOCK, 0, 0), act(UNLOCK, 0, 0)] * 33, sc=without((63, 65), in_turn(range(66)))), "inconsistent 6 63 65 64")
    first_line("rule_10_middle_127", fences([SEQ_CST] * 128, without((125, 126), in_turn([*range(126), 127, 126]))), "inconsistent 10 125 126 127")
    first_line("rule_10_unordered_127", fences([SEQ_CST] * 128, without((63, 127), in_turn([*range(63), *range(64, 127), 63, 127]))), "inconsistent 10 63 127")
    first_line("rule_14_middle_100", atomic_writes([0] * 101, without((63, 64), in_turn([*range(64), 100, *range(64, 100)]))), "inconsistent 14 63 64 100")
    # 64 reads another value than 127 writes
    other_value = Candidate(1, [1], [act(STORE, 0, 0, written=1), act(LOAD, 0, 0, read=2)], sb=[(0, 1)], rf=[(0, 1)])
    first_line("rule_17_down", spread(128, [127, 64], other_value), "inconsistent 17 127 64")
    drawn = letters()
    first_line("F_65", spread(65, [2, 60, 3, 63, 1, 64], drawn["F"]), "inconsistent 19 64 64")
    first_line("G_up", spread(100, [3, 64, 40, 99, 63, 98], drawn["G"]), "inconsistent 23 3 98")
    final("G_down", spread(100, [98, 40, 64, 63, 99, 3], drawn["G"]), "inconsistent 32 98 3")
    final("L_66", spread(66, [65, 0, 64], drawn["L"]), "inconsistent 31 0 64")


def found(name, *counts):
    """Holds a drawing's report to the counts that are due."""
    assert reference.report(FILES[name]).split("\n")[1] == "found %d %d %d" % counts, name


def wide_found():
    """Races and indeterminate reads in both halves."""
    # stores of four threads, and four loads of another place that nothing is written to
    lonely = Candidate(4, [1, 1], [act(STORE, t, 0) for t in range(4)] + [act(LOAD, t, 1) for t in range(4)])
    lines("found_128", spread(128, [0, 63, 100, 127, 1, 62, 64, 126], lonely), "consistent", "no order")
    found("found_128", 4, 0, 6)
    # the longest report: every pair of 127 stores and a load, and the middle has three digits, too
    every = stores(128, sc=[(100, 102), (102, 101)])
    every.acts[127] = act(LOAD, 0, 0)
    first_line("longest_report", every, "inconsistent 10 100 101 102")
    found("longest_report", 1, 8128, 0)
    # stores at the ends of a way of 127 steps of asw, 65 1 .. 127 63 64 0, all else fences; without one step they race
    way = TURNS[2:] + TURNS[:2]
    steps = list(zip(way, way[1:]))
    acts = [act(FENCE, way.index(a) % 2, order=RELAXED) for a in range(128)]
    acts[65], acts[0] = act(STORE, 0, 0), act(STORE, 1, 0)
    for name, asw, races in (("way_128", steps, 0), ("way_cut_128", without((31, 96), steps), 1)):
        lines(name, Candidate(2, [1], acts, asw=asw), "consistent", "no order")
        found(name, 0, 0, races)


def messages():
    """B; E; B by way of a read-modify-write, alone and with fences: passed, and no race, since the last load comes after the store that feeds it."""
    first, data, last = [act(STORE, 0, 0), act(ASTORE, 0, 1, RELAXED)], act(STORE, 1, 0, written=1), act(LOAD, 2, 0, read=1)
    onward = act(RMW, 3, 1, RELAXED, 1, 2)
    by_rmw = [*first, data, act(ASTORE, 1, 1, RELEASE, written=1), onward, act(ALOAD, 2, 1, ACQUIRE, read=2), last]
    by_fences = [*first, data, act(FENCE, 1, order=RELEASE), act(ASTORE, 1, 1, RELAXED, written=1), onward, act(ALOAD, 2, 1, RELAXED, read=2), act(FENCE, 2, order=ACQUIRE), last]
    return [letters()["B"], letters()["E"],
            Candidate(4, [1, 2], by_rmw, sb=[(0, 1), (2, 3), (5, 6)], asw=[(1, 2), (1, 4), (1, 5)], mo=in_turn([1, 3, 4]), rf=[(3, 4), (4, 5), (2, 6)]),
            Candidate(4, [1, 2], by_fences, sb=[(0, 1)] + in_turn([2, 3, 4]) + in_turn([6, 7, 8]), asw=[(1, 2), (1, 5), (1, 6)], mo=in_turn([1, 4, 5]), rf=[(4, 5), (5, 6), (2, 8)])]


def wide_messages():
    """Fourteen messages of the same threads, each at places of its own, from half to half."""
    many = Candidate(4, [], [])
    for message in (messages() * 4)[:14]:
        many = beside(many, message, 0)
    # up: threads 2 and 3, which get the message, are in the high half; down: they are in the low one
    rng, high, low = random.Random(128), iter(range(127, 63, -1)), iter(range(64))
    up = [next(high if thread > 1 else low) for _, _, thread, *_ in many.acts]
    down, shuffled = [127 - a for a in up], lambda: rng.sample(range(128), len(up))
    for name, numbers, edition in (("messages_up", up, 1), ("final_messages_down", down, 2), ("messages_shuffled", shuffled(), 1), ("final_messages_shuffled", shuffled(), 2)):
        lines(name, spread(128, numbers, many).of_edition(edition), "consistent", "no order")
        found(name, 0, 0, 0)


def wide_by_chance():
    """Generated drawings of each size."""
    rng = random.Random(8)
    for n in (65, 127):
        first_line("generated_%d_actions" % n, generated(rng, n), "consistent")
    for n in (100, 128):
        name = "generated_%d_actions" % n
        final(name, generated(rng, n, seq_cst=True, plain_first=True), "consistent")
        assert "\norder " in reference.report(FILES["final_" + name])


def lowest_broken():
    """The rules that are the lowest broken in some drawing of edition 2."""
    reports = (reference.report(FILES[name]).split() for name in FILES if name.startswith("final_"))
    return {int(words[1]) for words in reports if words[0] == "inconsistent"}


def write(crate, data, args, output):
    """A program's data by file name, its arguments, and what it is due to write."""
    at = os.path.join(CRATES, crate)
    shutil.rmtree(os.path.join(at, "data"), ignore_errors=True)
    os.makedirs(os.path.join(at, "data"))
    for name, content in data.items():
        with open(os.path.join(at, "data", name), "wb") as f:
            f.write(content)
    with open(os.path.join(at, "args"), "w") as f:
        f.writelines(word + "\n" for word in args)
    with open(os.path.join(at, "stdout"), "w") as f:
        f.writelines(output)


def write_drawings(crate, names, output):
    """The same for a program whose arguments are the drawings of these names."""
    data = {name + ".drawing": FILES[name] for name in names}
    write(crate, data, data, output)


def write_halves():
    """The program that completes drawings: of each its file, a budget and the file due, which is empty where none is."""
    data, args, output = {"none": b""}, [], []
    for name, half, budget, said, found in halves():
        due = name + ".found" if found else "none"
        data[name + ".half"], data[due] = half, found or b""
        words = [name + ".half", str(budget), due]
        store = "no candidate" if said.startswith("refused") and reference.report(half).startswith("refused") else "store as due"
        args += words
        output.append("%s: %s, as due, %s\n" % (" ".join(words), said, store))
    write("halves", data, args, output)


# by the rules of edition 2: 29 at the rf edge, and the race of the velocity's store and load
RINGS = {
    "ring": "consistent\nfound 0 0 0\nno order\n",
    "ring_relaxed": "consistent\nfound 0 0 1\ndata 5 9\nno order\n",
    "ring_stale": "inconsistent 29 1 9\nfound 0 0 0\nno order\n",
}


def write_examples():
    """D and the rings as texts, with the reports that are due of the rings."""
    for name, candidate in {"D": letters()["D"], **typed.rings()}.items():
        assert name not in RINGS or reference.report(candidate.file()) == RINGS[name], name
        with open(os.path.join(ROOT, "examples", name + ".txt"), "wb") as f:
            f.write(text_of(candidate))


def filed(text):
    """What is due of a text: the length of its file, of which the text is made again; or the refusal."""
    try:
        candidate = read(text)
    except reference.Refused as e:
        return "refused %d %d" % e.args
    assert text_of(candidate) == text
    return "file %d and back" % len(candidate.file())


def write_texts():
    """The program that makes files of texts; last it is due to say what becomes of buffers lent for D's file and its text. The files that are due of good texts stand beside them, for `.ci/words`."""
    data, files, output = {}, {}, []
    for name, text, at in typed.texts():
        said = filed(text)
        assert said.startswith("file") if at is None else said == "refused 13 %d" % at, name
        data[name + ".txt"] = text
        if at is None:
            files[name + ".drawing"] = read(text).file()
        output.append("%s.txt: %s\n" % (name, said))
    assert read(data["D.txt"]).file() == letters()["D"].file()
    for what, length in (("file", len(letters()["D"].file())), ("text", len(data["D.txt"]))):
        output.append("D's %s: of %d shorter buffers refused 9 0, all kept: %d; made in one as long, and in a longer one, rest kept\n" % (what, length, length))
    output += ["a bad text, no buffer: refused 13 0\n", "a bad file, no buffer: refused 1 0\n"]
    write("texts", {**data, **files}, data, output)


# what the calls of the machine are due to say, by the words of request Q-11: a machine's threads and places with its refusal; and steps of a machine of 2 threads and 1 place, where a store of thread 1 waits, with what each comes to there and on the same machine with 64 actions.
MACHINES = (((0, 0), 0), ((16, 64), 0), ((17, 64), 15), ((16, 65), 15), ((65536, 0), 15), ((0, 1 << 32), 15))
CALLS = (
    ("lock", 14, 14),
    ("unlock out of all limits", 14, 14),
    ("load", 14, 14),
    ("store in thread T", 14, 14),
    ("fence", 14, 14),
    ("consume at place P", 14, 14),
    ("seq_cst store", 14, 14),
    ("seq_cst RMW with a filled queue", 14, 14),
    ("thread T", 15, 15),
    ("thread 65536", 15, 15),
    ("place P", 15, 15),
    ("place 65536", 15, 15),
    ("a load that writes", 15, 15),
    ("the largest value", 0, 16),
    ("a larger value", 15, 15),
    ("RMW of it with a filled queue", 15, 15),
    ("drain of thread T", 15, 15),
    ("drain of thread 65537", 15, 15),
    ("release load", 15, 15),
    ("acq_rel load", 15, 15),
    ("acquire store", 15, 15),
    ("acq_rel store", 15, 15),
    ("RMW with an empty queue", 0, 16),
    ("RMW with a filled queue", 17, 16),
    ("drain of an empty queue", 17, 17),
    ("drain of a filled queue", 0, 0),
)


def called(no):
    return ": refused %d\n" % no if no else ": taken\n"


def run_trace(text):
    """What is due of a trace: its file, the lines that tell of refused steps, and the report of the file."""
    machine, told = run(text)
    file = machine.candidate().file()
    return file, "".join(told) + "file as due, judged alike\n" + reference.report(file)


def write_traces():
    """The program that runs traces, each with the file that is due of it; those that are refused have an empty one."""
    data, given, output = {"none.drawing": b""}, [], []
    for name, text in traces.good().items():
        data[name + ".trace"] = text.encode()
        data[name + ".drawing"], said = run_trace(text.encode())
        given += [name + ".trace", name + ".drawing"]
        output.append("%s.trace, %s.drawing\n%s" % (name, name, said))
    refused = [(name, text, (13, at)) for name, text, at in traces.bad()] + [("beyond_" + name, text.encode(), (15, 0)) for name, text in traces.BEYOND.items()]
    for name, text, due in refused:
        try:
            run(text)
            assert False, name
        except reference.Refused as e:
            assert e.args == due, name
        data[name + ".trace"] = text
        given += [name + ".trace", "none.drawing"]
        output.append("%s.trace, none.drawing\nrefused %d %d\n" % (name, *due))
    output += ["machine %d %d%s" % (*size, called(no)) for size, no in MACHINES]
    output += ["%s%swhen full, %s%s" % (name, called(first), name, called(second)) for name, first, second in CALLS]
    output += ["judge with a short store: refused 9\n", "judge with a short order buffer: refused 9\n", "all kept\n", "save in a short buffer: refused 9\n", "all kept\n"]
    write("traces", data, given, output)
    with open(os.path.join(ROOT, "examples", "ring.trace"), "w") as f:
        f.write(traces.RING)


def copied(data, report):
    """What is due of the writer, which makes the same file of every file that is taken."""
    return "not copied" + report[len("refused"):] if report.startswith("refused") else "copied %d\n" % len(data)


def as_text(data, report):
    """What is due of the text of a file, of which the same file is made."""
    return "not as text" + report[len("refused"):] if report.startswith("refused") else "as text %d\n" % len(text_of(candidate_of(data)))


def file_length(n):
    """By the paper's table: the records of 2 places, of n actions, of 7 relations of n rows, and the others."""
    return (4 + 8) + (4 + 2) + n * (4 + 16) + 7 * (4 + 2 + n * 8) + 4


def door(due):
    return ": refused %d %d, all kept" % due if due else ": judged, written"


def sought(due):
    return "; finder: refused %d %d, all kept" % (due or (12, 0))


def saved(due, n=2):
    return "; writer: %s, rest kept\n" % ("refused %d %d" % due if due else "saved %d" % file_length(n))


def told(what, due):
    """What is due of the second door, the finder and the writer."""
    return what + door(due) + sought(FINDER.get(what, due)) + saved(WRITER.get(what, due))


def told_half(what, n, edges):
    """The same of n actions, a store and a load among them, searched with a budget of 2; the store is written where something is found."""
    acts = [act(STORE, 0, 0, written=1), act(LOAD, 0, 0, read=1)] + [act(STORE, 0, 0, written=1)] * (n - 2)
    said, found = find(Candidate(1, [1, 0], acts, sb=[(0, 1)], **edges).file(), 2)
    return what + door(None) + "; finder: " + said + (", written" if found else ", all kept") + saved(None, n)


def main():
    for name, candidate in letters().items():
        add(name, candidate)
    unmarked()
    refusals()
    by_hand()
    middles()
    started_inside()
    beside_11()
    by_chance()
    final_letters()
    final_shared()
    final_refusals()
    final_sources()
    final_rmw()
    final_seq_cst()
    final_coherence()
    final_rings()
    final_proviso()
    final_withheld()
    final_in_turn()
    final_by_chance()
    wide_refusals()
    wide_orders()
    wide_pairs()
    wide_found()
    wide_messages()
    wide_by_chance()
    assert lowest_broken() == set(reference.RULES[2]) - {27}
    reports = {name: reference.report(content) for name, content in FILES.items()}
    write_drawings("drawings", FILES, ("%s.drawing\n%s%s%s" % (name, report, copied(FILES[name], report), as_text(FILES[name], report)) for name, report in reports.items()))
    both = list(letters()) + ["end_cut"] + [name for name in FILES if name.startswith(("actions", "bit_last", "generated", "messages", "disturbed", "rule_04", "rule_06", "rule_10", "rule_14", "rule_26", "asw"))] + FINAL_DOORS
    write_drawings("doors", both, [name + (".drawing: no candidate\n" if reports[name].startswith("refused") else ".drawing: the doors agree\n") for name in both]
          + [told(what, due) for what, due in SECOND] + [told_half(*half) for half in HALVES]
          + ["of %d buffers shorter than the file: refused 9 0, all kept: %d\n" % (file_length(2), file_length(2))])
    write_halves()
    write_texts()
    write_traces()
    write_examples()


if __name__ == "__main__":
    main()
