"""Drawings without rf, sc and mo, the budgets with which they are searched, and what is said of each by finder.py; of the classic tests also by the words of request Q-9."""
import random

from candidates import *
from finder import find

# what the request's issue says of the classic tests, each with a budget that covers its list
CLASSIC = {"sb_relaxed": "found 17", "sb_plain_first": "found 385", "mp_stale": "none 36", "mp_relaxed": "found 29", "lb_relaxed": "found 33", "sb_seq_cst": "none 25920", "iriw_relaxed": "found 281"}
ENOUGH = 100000
# more than most lists here have
SOON = 1000


def first_writes(order):
    """Of two atomic places, plain if no order is given."""
    return [act(ASTORE, 0, p, order) if order else act(STORE, 0, p) for p in (0, 1)]


def pairs_of_threads(first, acts):
    """The first writes, then two threads of two actions."""
    return Candidate(3, [2, 2], first_writes(first) + acts, sb=[(0, 1), (2, 3), (4, 5)], asw=[(1, 2), (1, 4)])


def store_buffering(first, order, x, y):
    return pairs_of_threads(first, [act(ASTORE, 1, 0, order, written=1), act(ALOAD, 1, 1, order, read=y), act(ASTORE, 2, 1, order, written=1), act(ALOAD, 2, 0, order, read=x)])


def load_buffering(order):
    return pairs_of_threads(RELAXED, [act(ALOAD, 1, 0, order, read=1), act(ASTORE, 1, 1, order, written=1), act(ALOAD, 2, 1, order, read=1), act(ASTORE, 2, 0, order, written=1)])


def message_passing(given, taken):
    return pairs_of_threads(RELAXED, [act(ASTORE, 1, 0, RELAXED, written=1), act(ASTORE, 1, 1, given, written=1), act(ALOAD, 2, 1, taken, read=1), act(ALOAD, 2, 0, RELAXED)])


def two_readers(first, order):
    acts = [act(ASTORE, 1, 0, order, written=1), act(ASTORE, 2, 1, order, written=1),
            act(ALOAD, 3, 0, order, read=1), act(ALOAD, 3, 1, order), act(ALOAD, 4, 1, order, read=1), act(ALOAD, 4, 0, order)]
    return Candidate(5, [2, 2], first_writes(first) + acts, sb=[(0, 1), (4, 5), (6, 7)], asw=[(1, 2), (1, 3), (1, 4), (1, 6)])


def classic():
    return {
        "sb_relaxed": store_buffering(RELAXED, RELAXED, 0, 0),
        "sb_plain_first": store_buffering(NONE, SEQ_CST, 0, 0),
        "mp_stale": message_passing(RELEASE, ACQUIRE),
        "mp_relaxed": message_passing(RELAXED, RELAXED),
        "lb_relaxed": load_buffering(RELAXED),
        "sb_seq_cst": store_buffering(SEQ_CST, SEQ_CST, 0, 0),
        "iriw_relaxed": two_readers(RELAXED, RELAXED),
    }


def downwards(kind, order, kinds=(2,)):
    """Three of a kind, each sequenced before those with lower numbers, so the last order of the list is the one."""
    return Candidate(1, kinds, [act(kind, 0, 65535 if kind == FENCE else 0, order) for _ in range(3)], sb=in_turn([2, 1, 0]))


def by_hand():
    """Each kind of choice, and what is easily read otherwise."""
    stores = lambda *xs: [act(ASTORE, t, p, RELAXED, written=v) for t, p, v in xs]
    return {
        # the empty list of choices still has one candidate
        "nothing": Candidate(0, [], []),
        "nothing_at_64_places": Candidate(0, [2] * 64, []),
        "one_fence": Candidate(1, [], [act(FENCE, 0, order=RELAXED)]),
        "unlocked": Candidate(1, [0], [act(UNLOCK, 0, 0)]),
        # a read with no write; a plain read of a plain write; of two; of a later one
        "read_alone": Candidate(1, [1], [act(LOAD, 0, 0)]),
        "plain_read": Candidate(1, [1], [act(STORE, 0, 0, written=7), act(LOAD, 0, 0, read=7)], sb=[(0, 1)]),
        "second_write_read": Candidate(1, [1], [act(STORE, 0, 0), act(STORE, 0, 0), act(LOAD, 0, 0)], sb=in_turn([0, 1, 2])),
        "write_numbered_later": Candidate(1, [2], [act(ALOAD, 0, 0, RELAXED, read=3)] + stores((0, 0, 3)), sb=[(1, 0)]),
        # the last of the reads varies fastest, and a read before an order
        "two_reads": Candidate(1, [2, 2], stores((0, 0, 5), (0, 1, 5)) + [act(ALOAD, 0, 0, RELAXED, read=5), act(ALOAD, 0, 1, RELAXED, read=5)], sb=in_turn(range(4))),
        "read_and_order": Candidate(1, [2], stores((0, 0, 1), (0, 0, 2)) + [act(ALOAD, 0, 0, RELAXED, read=1)], sb=in_turn([1, 0, 2])),
        # an RMW is among its own sources and in mo; two of them
        "rmw_alone": Candidate(1, [2], [act(RMW, 0, 0, RELAXED, read=1, written=1)]),
        "rmw_after_store": Candidate(1, [2], stores((0, 0, 4)) + [act(RMW, 0, 0, ACQ_REL, read=4, written=5)], sb=[(0, 1)]),
        "two_rmws": Candidate(3, [2], stores((0, 0, 0)) + [act(RMW, 1, 0, ACQ_REL, read=1, written=2), act(RMW, 2, 0, ACQ_REL, written=1)], asw=[(0, 1), (0, 2)]),
        # a plain store at an atomic place is among its writes and in mo
        "plain_at_atomic": Candidate(1, [2], [act(STORE, 0, 0, written=6), act(ALOAD, 0, 0, RELAXED, read=6), act(ASTORE, 0, 0, RELAXED, written=1)], sb=in_turn([2, 0, 1])),
        "atomic_at_plain": Candidate(1, [1], [act(ASTORE, 0, 0, RELAXED), act(ALOAD, 0, 0, RELAXED)], sb=[(0, 1)]),
        # a read at a mutex place has its choices too
        "read_at_mutex": Candidate(1, [0], [act(STORE, 0, 0), act(LOAD, 0, 0), act(STORE, 0, 0)], sb=in_turn([0, 1, 2])),
        # orders: the last of six; of two places by number of the place; sc of locks, of fences, of seq_cst at one place and of all three
        "mo_downwards": downwards(ASTORE, RELAXED),
        "no_mo_for_plain": downwards(STORE, NONE, (1,)),
        "sc_downwards": downwards(ALOAD, SEQ_CST),
        "sc_fences": downwards(FENCE, SEQ_CST),
        "two_places": Candidate(1, [2, 2], stores((0, 1, 0), (0, 0, 0), (0, 1, 0), (0, 0, 0)), sb=in_turn([0, 3, 1, 2])),
        "mo_before_sc": Candidate(1, [2], stores((0, 0, 0), (0, 0, 0)) + [act(FENCE, 0, order=SEQ_CST)] * 2, sb=in_turn([1, 0, 2, 3])),
        "second_place_first": Candidate(1, [1, 2], stores((0, 1, 0), (0, 1, 0)), sb=[(1, 0)]),
        "two_locks": Candidate(2, [0], [act(LOCK, 0, 0), act(LOCK, 1, 0), act(UNLOCK, 1, 0), act(UNLOCK, 0, 0)], sb=[(0, 3), (1, 2)]),
        "lock_and_seq_cst": Candidate(1, [0, 2], [act(ALOAD, 0, 1, SEQ_CST), act(LOCK, 0, 0), act(UNLOCK, 0, 0), act(FENCE, 0, order=SEQ_CST)], sb=in_turn([1, 2, 3, 0])),
        # races don't matter
        "racy": Candidate(3, [1], [act(STORE, 0, 0), act(STORE, 1, 0, written=1), act(STORE, 2, 0, written=2)], asw=[(0, 1), (0, 2)]),
        # eight actions and one more
        "eight_actions": Candidate(1, [1], [act(STORE, 0, 0) for _ in range(8)], sb=in_turn(range(8))),
    }


def refused_ones():
    """Each refusal of the finder alone, and those before it."""
    pair = lambda **edges: Candidate(1, [2], [act(ASTORE, 0, 0, RELAXED), act(ALOAD, 0, 0, RELAXED)], **edges)
    nine = lambda **edges: Candidate(1, [1], [act(STORE, 0, 0) for _ in range(9)], **edges)
    return {
        "nine_actions": nine(),
        "nine_actions_rf": nine(rf=[(0, 1)]),
        "rf_there": pair(rf=[(0, 1)]),
        "rf_in_the_last_row": pair(rf=[(1, 1)]),
        "sc_there": pair(sc=[(1, 0)]),
        "mo_there": pair(mo=[(1, 0)]),
        "asw_inside_and_mo": pair(asw=[(0, 1)], mo=[(0, 1)]),
        "column_n_and_mo": pair(cd=[(0, 2)], mo=[(0, 1)]),
        "cut": pair().file()[:-1],
        "edition_3": pair().of_edition(3),
    }


def halved(candidate):
    """The candidate without rf, sc and mo."""
    return Candidate(candidate.t, candidate.places, candidate.acts, candidate.edition, **dict(zip(NAMES[:4], candidate.edges)))


def by_chance():
    """Generated drawings of eight actions, some disturbed."""
    rng, halves = random.Random(21), {}
    for i in range(24):
        whole = generated(rng, 8, seq_cst=i % 4 == 3, plain_first=i % 5 == 4)
        half = halved(disturbed(rng, whole) if i % 3 == 2 else whole)
        halves["chance_%d" % i] = half.of_edition(1 + i % 2)
    return halves


def bytes_of(half):
    return half if isinstance(half, bytes) else half.file()


def answered(half, tried):
    """A drawing and what is said of it with these budgets, and with those at which the answer changes."""
    data = half if isinstance(half, bytes) else half.file()
    what, count = find(data, SOON)[0].split()[:2]
    if what in ("found", "none"):
        tried = {*tried, int(count) - 1, int(count)}
    for budget in sorted(tried):
        yield (data, budget, *find(data, budget))


def halves():
    """Name, file, budget, what is said, and the file due or None."""
    whole = {**classic(), **by_hand()}
    final = {"final_" + name: half.of_edition(2) for name, half in whole.items() if name != "sb_seq_cst"}
    for name, half in classic().items():
        said, found = find(half.file(), ENOUGH)
        assert said == CLASSIC[name], (name, said)
        yield name, half.file(), ENOUGH, said, found
    for some, tried in ((by_hand(), {0, 2 ** 64 - 1}), (refused_ones(), {0, 1}), (final, ()), (by_chance(), {SOON})):
        for name, half in some.items():
            for answer in answered(half, tried):
                yield (name, *answer)
