#!/usr/bin/env python3
"""An ordinary finder, by the words of request Q-9 over the ordinary judge, and with no proofs: the independent source of what is due of a search.

finder.py BUDGET < FILE      the found file on standard output, what came of the search on standard error
"""
import itertools
import sys

from candidates import Candidate, NAMES, in_turn
from reference import MO, RF, SC, Judge, Refused, decode

MOST = 8


def choices(places, acts):
    """The choices in their order, each the list of its options, an option the edges that it adds: relation, from, to."""
    actions = range(len(acts))
    reads = [a for a in actions if acts[a][0] in (3, 5, 6)]
    writes = [a for a in actions if acts[a][0] in (4, 5, 7)]
    at = lambda place: [w for w in writes if acts[w][3] == place]
    orders = lambda k, these: [[(k, a, b) for a, b in in_turn(order)] for order in itertools.permutations(these)]
    for r in reads:
        yield [[]] + [[(RF, w, r)] for w in at(acts[r][3])]
    for place, kind in enumerate(places):
        if kind == 2:
            yield orders(MO, at(place))
    yield orders(SC, [a for a in actions if acts[a][1] == 6 or acts[a][0] in (1, 2)])


def listed(places, acts, given):
    """The candidates in their order, as their relations; the last choice varies fastest."""
    for options in itertools.product(*choices(places, acts)):
        relations = [set(r) for r in given]
        for k, a, b in itertools.chain(*options):
            relations[k].add((a, b))
        yield relations


def search(edition, places, acts, given, budget):
    """What came of it and how many were judged, and the relations found or None."""
    judged = 0
    for relations in listed(places, acts, given):
        if judged == budget:
            return "undecided", judged, None
        judged += 1
        if Judge(edition, len(acts), places, acts, relations).verdict() is None:
            return "found", judged, relations
    return "none", judged, None


def find(s, budget):
    """What is said of a file, and the file found or None."""
    try:
        edition, n, places, acts, given = decode(s)
        if n > MOST:
            raise Refused(5, 0)
        if given[RF] or given[SC] or given[MO]:
            raise Refused(12, 0)
    except Refused as e:
        return "refused %d %d" % e.args, None
    said, judged, relations = search(edition, places, acts, given, budget)
    threads = int.from_bytes(s[8:10], "little")
    found = relations and Candidate(threads, places, acts, edition, **dict(zip(NAMES, relations))).file()
    return "%s %d" % (said, judged), found


if __name__ == "__main__":
    said, found = find(sys.stdin.buffer.read(), int(sys.argv[1]))
    sys.stdout.buffer.write(found or b"")
    sys.exit(said if not found else print(said, file=sys.stderr))
