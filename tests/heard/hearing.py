"""Has every call heard: what the machine code stores, against the model's list.

    python3 tests/heard/hearing.py EMULATOR RECORDER CALLER

EMULATOR is a qemu-x86_64 that takes plugins, RECORDER the plugin (recorder.c)
and CALLER the program that makes the calls (caller.c).  For each call the model
says which words are stored, in which order, and what is answered; the stores
that were recorded must be just these, each of 8 bytes at its offset; and what the
answer says to flush must be just what the stores reach.  Printed is a table, and
what differs; exit status 1 if something does.  The recorder itself is tried first;
exit status 3 if it is not to be trusted.
"""

import subprocess
import sys
import tempfile
from collections import Counter, namedtuple
from pathlib import Path

sys.path.insert(0, str(Path(__file__).resolve().parents[1] / "model"))

import pool
from build import telling_fuses
from cases import REQUEST_NAMES, all_cases
from generate import case_line
from pool import LARGEST

# How the library is built: with the fuse a number of the call, or a constant.
BUILDS = ("any fuse", "constant fuse")

Call = namedtuple("Call", "build case")

# A store as it was heard: offset in the image, and the bytes.
Store = namedtuple("Store", "offset data")

# What was heard of a call.  `whole`: the memory is what the stores made of it.
Heard = namedtuple("Heard", "stores whole")


# ---------------------------------------------------------------------------
# What is called
# ---------------------------------------------------------------------------

# The vectors' cases, each as it stands; then every list that they have, cut after
# each number of its stores (of many zeros after those that tell), not cut, and with
# one store to spare.  (Create has its cuts among the cases.)
def with_every_cut(cases):
    yield from cases
    for one in uncut(cases):
        stores = asked(one).answer.stores
        if one.name != "create" and stores:
            for fuse in (*telling_fuses(one.image, one.name, one.numbers), stores + 1):
                yield one._replace(fuse=fuse)


# Each image and request once, with a fuse that outlasts every list.
def uncut(cases):
    return dict.fromkeys(one._replace(fuse=LARGEST) for one in cases)


def all_calls():
    cases = all_cases()
    calls = [Call(0, one) for one in dict.fromkeys(with_every_cut(cases))]
    return calls + [Call(1, one) for one in uncut(cases) if one.name != "check"]


def call_line(call):
    return "%d %s" % (call.build, case_line(call.case))


# The trials of the recorder that caller.c makes: what it stores, and whether all
# of the change is stores.
TRIAL_LINES = ["2 64 0 0 0 0 0 0 0\n", "2 64 0 0 1 0 0 0 0\n"]
WORD = bytes(range(1, 9))
TRIALS = [
    Heard([Store(0, WORD), Store(16, WORD + WORD), Store(32, WORD[:4]), Store(40, WORD[:1]),
           Store(48, WORD), Store(56, WORD), Store(-8, WORD)], True),
    Heard([], False)]


# ---------------------------------------------------------------------------
# What the model says
# ---------------------------------------------------------------------------

class Listening(bytearray):
    """An image that notes each store made into it."""

    def __init__(self, image):
        super().__init__(image)
        self.stores = []

    def __setitem__(self, place, data):
        self.stores.append(Store(place.start, bytes(data)))
        super().__setitem__(place, data)


Asked = namedtuple("Asked", "stores answer totals")


def asked(case):
    """The model's stores, answer and (of a check) totals."""
    image = Listening(case.image)
    answer = pool.ask(image, case.name, case.numbers, case.fuse)
    totals = pool.check(image)[1] if case.name == "check" else ()
    return Asked(image.stores, answer, totals)


# ---------------------------------------------------------------------------
# What was heard
# ---------------------------------------------------------------------------

def calls_heard(lines):
    """The calls of a record, in order."""
    found = []
    for line in lines:
        first, *rest = line.split()
        if first == "call":
            assert int(rest[0]) == len(found) + 1, "a call is missing from the record"
            stores, whole = [], True
        elif first == "unheard":
            whole = False
        elif first == "end":
            found.append(Heard(stores, whole))
        else:
            data = bytes.fromhex(rest[1])
            assert len(data) == int(rest[0])
            stores.append(Store(int(first), data))
    return found


# The words of the stores, a wide one taken apart.
def in_words(stores):
    return [Store(one.offset + at, one.data[at:at + 8])
            for one in stores for at in range(0, len(one.data), 8)]


# What is to be flushed of the stores, as they were heard: from the lowest offset
# to the one just past the highest byte, and 0 and 0 where none was.
def reached(stores):
    if not stores:
        return [0, 0]
    return [min(one.offset for one in stores), max(one.offset + len(one.data) for one in stores)]


def is_part(few, many):
    """Whether the first list is left of the second if some of it is dropped."""
    rest = iter(many)
    return all(one in rest for one in few)


def verdict(wanted, heard):
    """Exact, or in which way a call was not."""
    if not heard.whole:
        return "changed unheard"
    if heard.stores == wanted:
        return "exact"
    words = in_words(heard.stores)
    if words == wanted:
        return "joined"
    if sorted(words) == sorted(wanted):
        return "reordered"
    if is_part(words, wanted):
        return "lost"
    return "wrong"


# ---------------------------------------------------------------------------
# The comparison
# ---------------------------------------------------------------------------

class Report:
    """What came of the calls, by build and request."""

    def __init__(self):
        self.calls = Counter()
        self.verdicts = Counter()
        self.stores = Counter()
        self.widths = Counter()
        self.examples = {}
        self.answers = []
        self.flushes = []

    def take(self, number, call, wanted, heard, answered):
        where = BUILDS[call.build], call.case.name
        kind = {0: "granted", 11: "cut"}.get(wanted.answer.answer, "refused")
        found = verdict(wanted.stores, heard)
        self.calls[where, kind] += 1
        self.verdicts[where, found] += 1
        self.stores[where] += len(heard.stores)
        for one in heard.stores:
            self.widths[where, len(one.data)] += 1
        if found != "exact":
            self.examples.setdefault((where, found), (number, call, wanted, heard))
        if answered != [*wanted.answer, *wanted.totals]:
            self.answers.append((number, call, wanted, answered))
        if answered[4:6] != reached(heard.stores):
            self.flushes.append((number, call, heard, answered))

    def places(self):
        return [(build, name) for build in BUILDS for name in REQUEST_NAMES
                if any(self.calls[(build, name), kind] for kind in KINDS)]

    def is_exact(self):
        return not self.examples and not self.answers and not self.flushes


KINDS = ("granted", "cut", "refused")


def how(report, where):
    """The verdicts and widths of a request, in words."""
    found = ", ".join("%d %s" % (count, kind) for (place, kind), count
                      in sorted(report.verdicts.items()) if place == where)
    widths = sorted((width, count) for (place, width), count in report.widths.items()
                    if place == where and width != 8)
    return found + "".join("; %d stores of %d bytes" % (count, width) for width, count in widths)


def print_report(report):
    print("%-14s %-17s %8s %8s %8s %8s  %s" % (
        "build", "request", *KINDS, "stores", "calls heard"))
    for where in report.places():
        counts = [report.calls[where, kind] for kind in KINDS]
        print("%-14s %-17s %8d %8d %8d %8d  %s" % (
            *where, *counts, report.stores[where], how(report, where)))
    for (where, found), example in report.examples.items():
        print_example(where, found, *example)
    for number, call, wanted, answered in report.answers[:5]:
        print("call %d, %s, %s: answered %s, the model %s" % (
            number, BUILDS[call.build], call_line(call).strip()[:300], answered,
            [*wanted.answer, *wanted.totals]))
    for number, call, heard, answered in report.flushes[:5]:
        print("call %d, %s, %s: says to flush %s, its stores reach %s" % (
            number, BUILDS[call.build], call_line(call).strip()[:300], answered[4:6],
            reached(heard.stores)))


# The first place where the two lists part, and a few stores from there on.
def print_example(where, found, number, call, wanted, heard):
    pairs = zip(wanted.stores, heard.stores)
    same = next((at for at, (one, other) in enumerate(pairs) if one != other),
                min(len(wanted.stores), len(heard.stores)))
    print("%s, %s: %s, first in call %d (%s, fuse %d), at store %d" % (
        *where, found, number, " ".join(map(str, (call.case.name, *call.case.numbers))),
        call.case.fuse, same))
    for name, stores in (("the model", wanted.stores), ("heard", heard.stores)):
        print("    %-10s %d stores%s" % (name, len(stores), "".join(
            ", %d <- %s" % (one.offset, one.data.hex()) for one in stores[same:same + 4])))


def compare(calls, heard, answers):
    assert len(calls) == len(heard) == len(answers), "not every call was made and recorded"
    report = Report()
    for number, (call, one, answered) in enumerate(zip(calls, heard, answers), 1):
        report.take(number, call, asked(call.case), one, answered)
    return report


def hear(emulator, recorder, caller, calls):
    """Has the trials and the calls made under the emulator.

    Gives what was heard of the trials and of the calls, and what these answered.
    """
    with tempfile.TemporaryDirectory() as folder:
        memory, record = Path(folder, "memory"), Path(folder, "record")
        memory.touch()
        plugin = "%s,memory=%s,record=%s" % (recorder, memory, record)
        done = subprocess.run(
            [emulator, "-plugin", plugin, caller, str(memory)], check=True,
            input="".join([*TRIAL_LINES, *map(call_line, calls)]), stdout=subprocess.PIPE,
            text=True)
        with open(record) as lines:
            heard = calls_heard(lines)
    answers = [list(map(int, line.split())) for line in done.stdout.splitlines()]
    return heard[:2], heard[2:], answers[2:]


def main(arguments):
    if len(arguments) != 3:
        print(__doc__)
        return 2
    calls = all_calls()
    trials, heard, answers = hear(*arguments, calls)
    if trials != TRIALS:
        print("heard: the recorder is not to be trusted: it heard", trials)
        return 3
    report = compare(calls, heard, answers)
    print_report(report)
    exact = sum(count for (_, kind), count in report.verdicts.items() if kind == "exact")
    print("heard: %d calls, %d stores; %d calls exact, %d not; %d wrong answers, %d wrong flushes" % (
        len(calls), sum(report.stores.values()), exact, len(calls) - exact, len(report.answers),
        len(report.flushes)))
    return 0 if report.is_exact() else 1


if __name__ == "__main__":
    sys.exit(main(sys.argv[1:]))
