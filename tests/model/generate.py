"""Writes the outside vectors and the scripts from the model.

    python3 tests/model/generate.py              write the files
    python3 tests/model/generate.py --check      write nothing; exit 1 and name
                                                 each file that differs
    python3 tests/model/generate.py --histogram  write nothing; count the answers

All of it is fixed: two runs write the same bytes.
"""

import re
import struct
import sys
from collections import Counter
from pathlib import Path

import pool
import program
from build import filled
from cases import MOST_WORDS, REQUEST_NAMES, all_cases
from scripts import SCRIPTS

ROOT = Path(__file__).resolve().parents[2]
CASES_FILE = ROOT / "crates/vectors/data/cases.txt"
STDOUT_FILE = ROOT / "crates/vectors/stdout"
SCRIPTS_FOLDER = ROOT / "tests/scripts"

PRIME = 4294967291


# "s = (s * 257 + b + 1) mod 4294967291" for so many times the same byte, by
# doubling: images are mostly long runs.  After n of them a sum s has become
# s * factor + added.
def checksum_of_run(total, byte, count):
    factor, added = 257, byte + 1
    while count:
        if count % 2:
            total = (total * factor + added) % PRIME
        factor, added = factor * factor % PRIME, (added * factor + added) % PRIME
        count //= 2
    return total


# From first to last, a run of the same byte at a time.
def checksum(image):
    total = 0
    for run in re.finditer(rb"(.)\1*", image, re.DOTALL):
        total = checksum_of_run(total, image[run.start()], run.end() - run.start())
    return total


def words_of(image, fill):
    """The words that differ from the fill's, as offsets and values in turn."""
    whole = len(image) // 8
    words = struct.unpack("<%dQ" % whole, image[:8 * whole])
    assert image[8 * whole:] == filled(len(image) % 8, fill)
    usual = int.from_bytes(filled(8, fill), "little")
    return [number for at, word in enumerate(words) if word != usual
            for number in (8 * at, word)]


# LENGTH FILL K OFFSET1 WORD1 .. OFFSETK WORDK REQUEST A B C FUSE
def case_line(one):
    words = words_of(one.image, one.fill)
    assert len(words) // 2 <= MOST_WORDS and len(one.image) <= 65536
    numbers = one.numbers + (0,) * (3 - len(one.numbers))
    line = [len(one.image), one.fill, len(words) // 2, *words,
            REQUEST_NAMES.index(one.name), *numbers, one.fuse]
    return " ".join(map(str, line)) + "\n"


# N ANSWER PLACE FAULT STORES FROM TO FREE RESERVED ACTIVATING ACTIVE FREEING SUM
def outcome_line(number, one):
    image = bytearray(one.image)
    given = pool.ask(image, one.name, one.numbers, one.fuse)
    _, totals = pool.check(image)
    return " ".join(map(str, (number, *given, *totals, checksum(image)))) + "\n"


def files_wanted():
    """Every file that the generator writes, with its bytes."""
    cases = all_cases()
    outcomes = (outcome_line(at, one) for at, one in enumerate(cases, 1))
    wanted = {CASES_FILE: "".join(map(case_line, cases)).encode(),
              STDOUT_FILE: "".join(outcomes).encode()}
    for name, data in SCRIPTS.items():
        wanted[SCRIPTS_FOLDER / (name + ".in")] = data
        wanted[SCRIPTS_FOLDER / (name + ".out")] = program.run(data)
    return wanted


def write(wanted):
    for path, data in wanted.items():
        path.parent.mkdir(parents=True, exist_ok=True)
        path.write_bytes(data)


# A script that the generator doesn't write is a difference too: it would be run
# with an output that no model stands behind.
def differences(wanted):
    found = [path for path, data in wanted.items()
             if not path.is_file() or path.read_bytes() != data]
    present = sorted(SCRIPTS_FOLDER.glob("*.in")) + sorted(SCRIPTS_FOLDER.glob("*.out"))
    return found + [path for path in present if path not in wanted]


def histogram(cases):
    """How often each request gives each answer."""
    counts = Counter()
    for one in cases:
        given = pool.ask(bytearray(one.image), one.name, one.numbers, one.fuse)
        counts[one.name, given.answer] += 1
    return counts


def print_histogram():
    cases = all_cases()
    counts = histogram(cases)
    print("%-17s" % "answer" + "".join("%6d" % answer for answer in range(12)))
    for name in REQUEST_NAMES:
        print("%-17s" % name + "".join("%6d" % counts[name, answer] for answer in range(12)))
    print("cases", len(cases))


def main(options):
    if options == ["--histogram"]:
        print_histogram()
        return 0
    if options not in ([], ["--check"]):
        print(__doc__)
        return 2
    wanted = files_wanted()
    if not options:
        write(wanted)
        return 0
    found = differences(wanted)
    for path in found:
        print("differs:", path.relative_to(ROOT))
    return 1 if found else 0


if __name__ == "__main__":
    sys.exit(main(sys.argv[1:]))
