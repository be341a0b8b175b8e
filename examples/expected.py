#!/usr/bin/env python3
"""expected.py FILE..: what the examples are to print of these drawing files, by the corpus's ordinary judge."""
import os
import sys

sys.path.insert(0, os.path.join(os.path.dirname(os.path.abspath(__file__)), "..", "corpus"))
import reference


def numbers(s):
    """The twelve numbers of the answer, and the serial order or None."""
    try:
        judge = reference.Judge(*reference.decode(s))
    except reference.Refused as refusal:
        return [0, *refusal.args] + [0] * 9, None
    verdict = judge.verdict()
    rule, a, b, middle = verdict or (0, 0, 0, None)
    order = judge.serial(verdict)
    data, unsequenced = ({(a, b) for a, b in r if a < b} for r in (judge.derived[9], judge.derived[10]))
    counts = [len(judge.indeterminate()), len(unsequenced), len(data)]
    return [1, 0, 0, rule, a, b, *counts, int(order is not None), int(middle is not None), middle or 0], order


def line(word, xs):
    return " ".join([word, *map(str, xs)])


if __name__ == "__main__":
    for path in sys.argv[1:]:
        with open(path, "rb") as f:
            answer, order = numbers(f.read())
        print(path)
        print(line("answer", answer))
        print("no order" if order is None else line("order", order))
