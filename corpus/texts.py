#!/usr/bin/env python3
"""An ordinary reader and writer of text drawings, line by line from the words of request Q-10, and with no proofs: the independent source of what is due of a text.

texts.py text < FILE      the text of one drawing file
texts.py file < TEXT      the drawing file of one text
"""
from collections import deque
import re
import sys

from candidates import *
from reference import ASW, LIMIT, Refused, decode

PLACES = ["mutex", "plain", "atomic"]
ORDERS = ["relaxed", "consume", "acquire", "release", "acq_rel", "seq_cst"]
# each line with the names of its fields
FIRST = "drawing {edition} {n} {t} {p}"
ACTIONS = {
    LOCK: "lock {thread} {place}",
    UNLOCK: "unlock {thread} {place}",
    ALOAD: "aload {thread} {place} {order} {read}",
    ASTORE: "astore {thread} {place} {order} {written}",
    RMW: "rmw {thread} {place} {order} {read} {written}",
    LOAD: "load {thread} {place} {read}",
    STORE: "store {thread} {place} {written}",
    FENCE: "fence {thread} {order}",
}
EDGE = "{relation} {a} {b}"
END = "end"

# ten digits are enough for every number that is taken
NUMBER = "0|[1-9][0-9]{0,9}"
WORDS = {"order": ORDERS, "relation": NAMES}


def expression(form):
    """The regular expression of such a line."""
    return re.compile(re.sub(r"\{(\w+)\}", lambda field: "(?P<%s>%s)" % (field[1], "|".join(WORDS.get(field[1], [NUMBER]))), form))


EXPRESSIONS = {form: expression(form) for form in (FIRST, EDGE, *ACTIONS.values())}


def fields(form, line, **bounds):
    """The fields of a line of this form, words as they stand, numbers each below its bound; None if it is no such line."""
    found = EXPRESSIONS[form].fullmatch(line)
    if not found:
        return None
    values = {name: word if name in WORDS else int(word) for name, word in found.groupdict().items()}
    return values if all(values[name] < bound for name, bound in bounds.items() if name in values) else None


# ---- a text read

class Lines:
    """The lines of a text that a newline ends, and where the next of them starts, or would start."""

    def __init__(self, text):
        self.left, self.at = deque(text.decode("latin-1").split("\n")[:-1]), 0

    def take(self, meaning):
        """What the next line means; refused where there is none or it means nothing."""
        meant = meaning(self.left[0]) if self.left else None
        if meant is None:
            raise Refused(13, self.at)
        self.at += len(self.left.popleft()) + 1
        return meant


def as_first(line):
    found = fields(FIRST, line, edition=3, n=LIMIT["n"] + 1, t=LIMIT["t"] + 1, p=LIMIT["p"] + 1)
    return found if found and found["edition"] else None


def as_place(line):
    return PLACES.index(line) if line in PLACES else None


def as_action(line, t, p):
    for kind, form in ACTIONS.items():
        found = fields(form, line, thread=t, place=p, read=2 ** 32, written=2 ** 32)
        if found:
            order = found.pop("order", None)
            return act(kind, order=1 + ORDERS.index(order) if order else NONE, **found)
    return None


def as_edge(line, acts, before):
    """Relation, from, to: after the edge before, and of asw only between threads."""
    found = fields(EDGE, line, a=len(acts), b=len(acts))
    if not found:
        return None
    k, a, b = NAMES.index(found["relation"]), found["a"], found["b"]
    inside = k == ASW and acts[a][2] == acts[b][2]
    return (k, a, b) if before < (k, a, b) and not inside else None


def read(text):
    """The candidate of a text; or Refused, with 13 and where the first bad or missing line starts."""
    lines = Lines(text)
    sizes = lines.take(as_first)
    places = [lines.take(as_place) for _ in range(sizes["p"])]
    acts = [lines.take(lambda line: as_action(line, sizes["t"], sizes["p"])) for _ in range(sizes["n"])]
    edges = [()]
    while edges[-1] != END:
        edges.append(lines.take(lambda line: END if line == END else as_edge(line, acts, edges[-1])))
    if lines.at < len(text):
        raise Refused(13, lines.at)
    related = {name: [(a, b) for k, a, b in edges[1:-1] if NAMES[k] == name] for name in NAMES}
    return Candidate(sizes["t"], places, acts, sizes["edition"], **related)


# ---- a text written

def lines_of(candidate):
    yield FIRST.format(edition=candidate.edition, n=len(candidate.acts), t=candidate.t, p=len(candidate.places))
    for kind in candidate.places:
        yield PLACES[kind]
    for kind, order, thread, place, read, written in candidate.acts:
        yield ACTIONS[kind].format(thread=thread, place=place, order=ORDERS[order - 1], read=read, written=written)
    for name, edges in zip(NAMES, candidate.edges):
        for a, b in sorted(edges):
            yield EDGE.format(relation=name, a=a, b=b)
    yield END


def text_of(candidate):
    return "".join(line + "\n" for line in lines_of(candidate)).encode()


def candidate_of(file):
    """The candidate of a drawing file; or Refused, as the ordinary judge does."""
    edition, _, places, acts, given = decode(file)
    return Candidate(int.from_bytes(file[8:10], "little"), places, acts, edition, **dict(zip(NAMES, given)))


if __name__ == "__main__":
    made = {"text": lambda data: text_of(candidate_of(data)), "file": lambda data: read(data).file()}[sys.argv[1]]
    try:
        sys.stdout.buffer.write(made(sys.stdin.buffer.read()))
    except Refused as e:
        sys.exit("refused %d %d" % e.args)
