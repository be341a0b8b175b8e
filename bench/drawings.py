#!/usr/bin/env python3
"""drawings.py N COUNT FILE FILE: writes COUNT generated drawings of N actions, every second one passed and the others with small changes that break a rule; to the first file of edition 1, to the second the same of edition 2.
Where edition 2 answers otherwise, the drawing is changed further, or made anew.

drawings.py --half FILE: writes a drawing of 8 actions without rf, sc and mo whose search takes long: two threads store, two load, all seq_cst, after plain first writes.

Each is written as 1 or 0 for passed or not (u8), its length (u32) and its bytes. The corpus's ordinary judge says which are passed."""
import os
import random
import struct
import sys

sys.path.insert(0, os.path.join(os.path.dirname(os.path.abspath(__file__)), "..", "corpus"))
from candidates import SEQ_CST, disturbed, generated
from halves import two_readers
import reference


def passed(candidate):
    return reference.report(candidate.file()).startswith("consistent")


def until(rng, candidate, wanted):
    """The candidate, changed or made anew until it is passed, or not, as is wanted."""
    while passed(candidate) != wanted:
        candidate = generated(rng, len(candidate.acts)).of_edition(candidate.edition) if wanted else disturbed(rng, candidate)
    return candidate


def write(out, candidate, wanted):
    data = candidate.file()
    out.write(struct.pack("<BI", wanted, len(data)) + data)


def write_half(path):
    with open(path, "wb") as out:
        out.write(two_readers(None, SEQ_CST).file())


def write_drawings(n, count, path, final_path):
    # edition 2 draws on its own, so that the drawings of edition 1 do not hang on it
    rng, final_rng = random.Random(1000 * n + count), random.Random(1000 * n + count)
    with open(path, "wb") as out, open(final_path, "wb") as final_out:
        for i in range(count):
            wanted = i % 2 == 0
            candidate = until(rng, generated(rng, n, seq_cst=rng.random() < 0.25), wanted)
            write(out, candidate, wanted)
            write(final_out, until(final_rng, candidate.of_edition(2), wanted), wanted)


if __name__ == "__main__":
    if sys.argv[1] == "--half":
        write_half(sys.argv[2])
    else:
        write_drawings(int(sys.argv[1]), int(sys.argv[2]), sys.argv[3], sys.argv[4])
