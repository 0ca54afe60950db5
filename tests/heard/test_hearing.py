"""Tests of the comparison: each way in which a call can go wrong is told."""

import unittest
from collections import Counter

import hearing
from build import MIXED, MIXED_ACTIVE, case
from hearing import BUILDS, Call, Heard, Store, asked, calls_heard, compare, reached, verdict


def stores(*pairs):
    return [Store(offset, word.to_bytes(8, "little")) for offset, word in pairs]


LIST = stores((8, 1), (16, 0), (24, 0), (8, 2))


class TestVerdict(unittest.TestCase):
    def test_exact(self):
        self.assertEqual(verdict(LIST, Heard(list(LIST), True)), "exact")
        self.assertEqual(verdict([], Heard([], True)), "exact")

    def test_two_words_by_one_store(self):
        wide = [LIST[0], Store(16, bytes(16)), LIST[3]]
        self.assertEqual(verdict(LIST, Heard(wide, True)), "joined")

    def test_another_order(self):
        self.assertEqual(verdict(LIST, Heard([LIST[0], LIST[2], LIST[1], LIST[3]], True)), "reordered")

    def test_a_store_too_few(self):
        for at in range(len(LIST)):
            self.assertEqual(verdict(LIST, Heard(LIST[:at] + LIST[at + 1:], True)), "lost")

    def test_a_store_too_many(self):
        for at in range(len(LIST)):
            self.assertEqual(verdict(LIST, Heard(LIST[:at] + LIST[at:at + 1] + LIST[at:], True)), "wrong")
        self.assertEqual(verdict([], Heard(LIST[:1], True)), "wrong")

    def test_another_word_or_offset(self):
        self.assertEqual(verdict(LIST, Heard(LIST[:3] + stores((8, 3)), True)), "wrong")
        self.assertEqual(verdict(LIST, Heard(LIST[:3] + stores((0, 2)), True)), "wrong")

    def test_a_word_in_two_halves(self):
        halves = [Store(8, LIST[0].data[:4]), Store(12, LIST[0].data[4:])]
        self.assertEqual(verdict(LIST, Heard(halves + LIST[1:], True)), "wrong")

    def test_a_change_that_no_store_made(self):
        self.assertEqual(verdict(LIST, Heard(list(LIST), False)), "changed unheard")


class TestRecord(unittest.TestCase):
    def test_calls(self):
        lines = ["call 1\n", "8 8 0100000000000000\n", "-8 4 01020304\n", "end\n",
                 "call 2\n", "unheard 100\n", "end\n"]
        self.assertEqual(calls_heard(lines), [
            Heard([Store(8, b"\1\0\0\0\0\0\0\0"), Store(-8, b"\1\2\3\4")], True), Heard([], False)])

    def test_a_call_that_is_missing(self):
        with self.assertRaises(AssertionError):
            calls_heard(["call 2\n", "end\n"])


class TestCompare(unittest.TestCase):
    def setUp(self):
        self.call = Call(0, case(MIXED, "free", MIXED_ACTIVE))
        self.wanted = asked(self.call.case)
        self.answered = [*self.wanted.answer]

    def test_exact(self):
        self.assertTrue(compare([self.call], [Heard(self.wanted.stores, True)], [self.answered]).is_exact())

    # FREEING, two assignments, FREE, and the join with the FREE clump behind it.
    def test_the_model_s_list(self):
        self.assertEqual(self.wanted.stores, stores((16392, 4), (4096, 11), (16448, 12), (16392, 0), (16384, 448)))

    def test_a_lost_store(self):
        report = compare([self.call], [Heard(self.wanted.stores[1:], True)], [self.answered])
        self.assertFalse(report.is_exact())
        self.assertEqual(report.verdicts[(BUILDS[0], "free"), "lost"], 1)

    def test_a_wrong_answer(self):
        self.assertEqual(len(self.answered), 6)
        for at in range(6):
            self.answered[at] += 1
            report = compare([self.call], [Heard(self.wanted.stores, True)], [self.answered])
            self.assertEqual((len(report.answers), len(report.flushes)), (1, at // 4))
            self.assertFalse(report.is_exact())
            self.answered[at] -= 1

    # What is said to be flushed is held to what was heard, whatever the model says.
    def test_what_the_stores_reach(self):
        self.assertEqual(reached([]), [0, 0])
        self.assertEqual(reached(LIST), [8, 32])
        self.assertEqual(reached([Store(16, bytes(16)), Store(-8, bytes(4))]), [-8, 32])
        self.assertEqual(self.answered[4:], [4096, 16456])
        for heard in (self.wanted.stores[:2], self.wanted.stores + stores((16456, 0))):
            report = compare([self.call], [Heard(heard, True)], [self.answered])
            self.assertEqual((len(report.answers), len(report.flushes)), (0, 1))

    def test_a_call_that_was_not_made(self):
        with self.assertRaises(AssertionError):
            compare([self.call], [], [])


class TestCalls(unittest.TestCase):
    @classmethod
    def setUpClass(cls):
        cls.calls = hearing.all_calls()
        cls.answers = [asked(call.case).answer for call in cls.calls]

    # "every request, granted and refused": in both builds, and with no image at all.
    def test_what_is_called(self):
        self.assertGreaterEqual(len(self.calls), 5000)
        self.assertEqual(len(set(self.calls)), len(self.calls))
        answers = {(call.build, call.case.name, given.answer)
                   for call, given in zip(self.calls, self.answers)}
        for build in (0, 1):
            for name in pool_requests(build):
                self.assertIn((build, name, 0), answers)
                self.assertIn((build, name, 1), answers)
            empty = {call.case.name for call in self.calls if call.build == build and not call.case.image}
            self.assertEqual(empty, set(pool_requests(build)))
        self.assertEqual({(build, name) for build, name, answer in answers if answer == 11},
                         {(0, name) for name in pool_requests(1)})

    # "every cut": each list is called with every fuse up to one that has a store to
    # spare; create's, which is the same for every image, over one of them.  Of a reserve
    # that clears many words, every fuse but those within its zeros.
    def test_every_cut(self):
        fuses = {}
        for build, one in self.calls:
            if build == 0 and one.name != "check":
                fuses.setdefault(one._replace(fuse=hearing.LARGEST), set()).add(one.fuse)
        found = Counter()
        for one, called in fuses.items():
            stores = asked(one).answer.stores
            if stores:
                found[one.name, called.issuperset(range(stores + 2))] += 1
            if stores and one.name == "reserve":
                self.assertLessEqual(fuses_of_reserve(stores), called)
        for name in pool_requests(1):
            self.assertGreater(found[name, True], 0)
            self.assertTrue(name in ("create", "reserve") or found[name, False] == 0)
        self.assertGreater(found["reserve", False], 0)

    # The hearing takes its time for each store.
    def test_how_much_is_called(self):
        self.assertLessEqual(len(self.calls), 30000)
        self.assertLessEqual(sum(given.stores for given in self.answers), 1300000)


# The fuses that a reserve of so many stores is called with at the least: 7 or 4 of them
# are no zeros, and a body has eight words or more.  Every fuse up to the second zero, the
# middle, and every fuse from the last zero but one on; all, if the zeros are 16 or fewer.
def fuses_of_reserve(stores):
    others = stores % 8
    zeros = stores - others
    if zeros <= 16:
        return set(range(stores + 2))
    return {*range(others + 2), others - 1 + zeros // 2, *range(stores - 3, stores + 2)}


def pool_requests(build):
    return [name for name in hearing.REQUEST_NAMES if build == 0 or name != "check"]


if __name__ == "__main__":
    unittest.main()
