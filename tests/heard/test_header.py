"""Holds include/syrinthoa.h to the library: the same functions, fields and numbers."""

import re
import unittest
from pathlib import Path

from hearing import REQUEST_NAMES

ROOT = Path(__file__).resolve().parents[2]
HEADER = re.sub(r"/\*.*?\*/", "", (ROOT / "include/syrinthoa.h").read_text(), flags=re.DOTALL)
RULES = (ROOT / "crates/rules/src/lib.rt").read_text()
CLUMP = (ROOT / "crates/page/src/clump.rt").read_text()
SURVEY = (ROOT / "crates/survey/src/lib.rt").read_text()
EXPORTS = (ROOT / "crates/syrinthoa/src/lib.rt").read_text()


# The block that starts with this text, up to the brace at the start of a line.
def block(source, start):
    return source[source.index(start):].split("\n}")[0]


def constants(source):
    return {name: int(number) for name, number in
            re.findall(r"pub const (\w+): u64 = (\d+);", source)}


def enumerators():
    """The header's enumerations, each as {name: number}."""
    return [{name.removeprefix("SYRINTHOA_"): int(number) for name, number in
             re.findall(r"(\w+) = (\d+)", body)}
            for body in re.findall(r"enum \{(.*?)\};", HEADER, re.DOTALL)]


def fields(name):
    return re.findall(r"(\w+);", block(HEADER, "struct %s {" % name))


def rattle_fields(source, name):
    return re.findall(r"pub (\w+): ", block(source, "pub struct %s {" % name))


# What a parameter of the library is in C, with its name where it keeps it.
def in_c(name, kind):
    if kind == "u64":
        return ["uint64_t " + name]
    return [{"&mut [u8]": "uint8_t *image", "&[u8]": "const uint8_t *image"}[kind], "size_t length"]


def declared():
    return {name: [one.strip() for one in parameters.split(",")] for name, parameters in
            re.findall(r"(syrinthoa_\w+)\(([^)]*)\);", HEADER)}


def exported():
    return {name: [one for parameter in re.findall(r"(\w+): ([^,\n]+)", parameters)
                   for one in in_c(*parameter)]
            for name, parameters in re.findall(r'pub extern "C" fn (\w+)\(([^)]*)\)', EXPORTS)}


class TestHeader(unittest.TestCase):
    def test_answers_and_states(self):
        answers, _, states = enumerators()
        self.assertEqual(answers, constants(block(RULES, "impl Answer {")))
        names = ("FREE", "RESERVED", "ACTIVATING", "ACTIVE", "FREEING")
        self.assertEqual(states, {name: constants(CLUMP)[name] for name in names})

    def test_faults_are_the_paper_s(self):
        self.assertEqual(list(enumerators()[1].values()), [1, 2, 3, 4, 5])

    def test_fields(self):
        self.assertEqual(fields("syrinthoa_answer"), rattle_fields(RULES, "Answer"))
        self.assertEqual(fields("syrinthoa_totals"), rattle_fields(RULES, "Totals"))
        self.assertEqual(fields("syrinthoa_checked"), rattle_fields(SURVEY, "Checked"))

    def test_functions(self):
        self.assertEqual(declared(), exported())
        self.assertEqual(set(declared()), {"syrinthoa_" + name for name in REQUEST_NAMES})


if __name__ == "__main__":
    unittest.main()
