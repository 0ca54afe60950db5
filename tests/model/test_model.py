"""Holds the model against document 01 and requests W1, W4, W5 and W6 of document 02:
their numbers, worked by hand, and their rules.

    python3 -m unittest discover -s tests/model
"""

import unittest
from unittest import mock

import cases
import generate
import pool
import program
from build import (
    Dice, EMPTY, FORMS, MARKED, MIXED, MIXED_ACTIVE, MIXED_BARE_ACTIVE, MIXED_FREE,
    MIXED_RESERVED, MIXTURES, OLD_BYTES, OLD_RECORD, OLD_WORDS, UNMARKED, after, case,
    clump, dirty_pool, dusty, filled, fresh, growing_pool, mixed_entries, mixture_pool,
    pool_of, stores_of, telling_fuses, with_old_body, with_words)
from pool import FREE, RESERVED, ACTIVATING, ACTIVE, FREEING, LARGEST
from scripts import SCRIPTS


# Sizes and states along the walk.
def tiles(image):
    return [(one.nbytes, one.state) for one in pool.walk(image)]


# The numbers of the words in which two images differ.
def changed_words(one, other):
    return [at for at in range(0, len(one), 8) if one[at:at + 8] != other[at:at + 8]]


# The answer to a case, and the offsets stored to on the way, each as it is stored.
def heard(image, one):
    offsets = []
    put_word = pool.put_word

    def put_and_note(image, offset, value):
        put_word(image, offset, value)
        offsets.append(offset)

    with mock.patch.object(pool, "put_word", put_and_note):
        given = pool.ask(image, one.name, one.numbers, one.fuse)
    return given, offsets


# ---------------------------------------------------------------------------
# "Numbers to try"
# ---------------------------------------------------------------------------

class NumbersToTry(unittest.TestCase):

    # Reserve in both forms.  Of the second, 01's: how many stores, and the bytes to
    # flush.  Of the first, W5's: "The store counts of 01 grow by body bytes divided by
    # 8", and the body's bytes are to be flushed too.
    def assert_reserved(self, image, size, place, uncleared, cleared, expected):
        for name, counted in (("reserve_uncleared", uncleared), ("reserve", cleared)):
            behind = bytearray(image)
            self.assertEqual(pool.ask(behind, name, (size,)), (0, place, 0, *counted))
            self.assertEqual(tiles(behind), expected)

    def assert_no_room(self, image, size):
        for name in FORMS:
            behind = bytearray(image)
            self.assertEqual(pool.ask(behind, name, (size,)), (5, 0, 0, 0, 0, 0))
            self.assertEqual(behind, image)

    # A: size 1 needs 128, 64 needs 128, 65 needs 192, 1000 needs 1088.  The bodies
    # have 64, 64, 128 and 1024 bytes.
    def test_a(self):
        for size, need, zeros in ((1, 128, 8), (64, 128, 8), (65, 192, 16), (1000, 1088, 128)):
            # The highest word is the state of the rest, and the body lies below it.
            flushed = (16384, 16384 + need + 16)
            self.assert_reserved(fresh(32768), size, 16448, (7, *flushed),
                                 (7 + zeros, *flushed),
                                 [(need, RESERVED), (16384 - need, FREE)])

    # B: 256, RESERVED 1088, FREE 960, 256.
    def test_b(self):
        image = pool_of(clump(256, ACTIVE), clump(2048, FREE), clump(256, ACTIVE))
        self.assert_reserved(image, 1000, 16704, (7, 16640, 17744), (135, 16640, 17744),
                             [(256, ACTIVE), (1088, RESERVED), (960, FREE), (256, ACTIVE)])

    # C: of 1216, split to 1088 and 128.
    def test_c(self):
        image = pool_of(clump(128, ACTIVE), clump(1216, FREE))
        self.assert_reserved(image, 1000, 16576, (7, 16512, 17616), (135, 16512, 17616),
                             [(128, ACTIVE), (1088, RESERVED), (128, FREE)])

    # D: of 1152, all taken: a body of 1088 bytes, up to 17663.
    def test_d(self):
        image = pool_of(clump(128, ACTIVE), clump(1152, FREE))
        self.assert_reserved(image, 1000, 16576, (4, 16520, 16568), (140, 16520, 17664),
                             [(128, ACTIVE), (1152, RESERVED)])

    # E: of 1088, taken: a body of 1024 bytes.
    def test_e(self):
        image = pool_of(clump(128, ACTIVE), clump(1088, FREE))
        self.assert_reserved(image, 1000, 16576, (4, 16520, 16568), (132, 16520, 17600),
                             [(128, ACTIVE), (1088, RESERVED)])

    # F: of 1024, answer 5.
    def test_f(self):
        self.assert_no_room(pool_of(clump(128, ACTIVE), clump(1024, FREE)), 1000)

    # G: FREE 16384: size 16320 fits, 16321 doesn't; 18446744073709551615 gets 5.  The
    # body of 16,320 bytes is 2,040 words.
    def test_g(self):
        self.assert_reserved(fresh(32768), 16320, 16448, (4, 16392, 16440),
                             (2044, 16392, 32768), [(16384, RESERVED)])
        self.assert_no_room(fresh(32768), 16321)
        self.assert_no_room(fresh(32768), 18446744073709551615)

    def pool_of_h(self):
        image = pool_of(clump(128, RESERVED, (4096, 7), (4096, 9)), clump(128, FREE))
        return with_words(image, {4096: 55})

    # H: activate makes 6 stores.
    def test_h_whole(self):
        image = self.pool_of_h()
        self.assertEqual(pool.activate(image, 16448), (0, 16448, 0, 6, 4096, 16424))
        self.assertEqual(pool.word(image, 4096), 9)
        self.assertEqual(image[16400:16408] + image[16416:16424], bytes(16))
        self.assertEqual(tiles(image), [(128, ACTIVE), (128, FREE)])

    # H: cut after 2, 4096 holds 7; after recovery 9.
    def test_h_cut_after_2(self):
        image = self.pool_of_h()
        self.assertEqual(pool.activate(image, 16448, fuse=2), (11, 0, 0, 2, 4096, 16400))
        self.assertEqual(pool.word(image, 4096), 7)
        # Two assignments, two targets emptied, one state.
        self.assertEqual(pool.recover(image), (0, 0, 0, 5, 4096, 16424))
        self.assertEqual(pool.word(image, 4096), 9)

    # H: cut after 4, 9 stays.
    def test_h_cut_after_4(self):
        image = self.pool_of_h()
        self.assertEqual(pool.activate(image, 16448, fuse=4), (11, 0, 0, 4, 4096, 16408))
        self.assertEqual(pool.word(image, 4096), 9)
        # The second entry is left: assigned, emptied, state.
        self.assertEqual(pool.recover(image), (0, 0, 0, 3, 4096, 16424))
        self.assertEqual(pool.word(image, 4096), 9)
        self.assertEqual(tiles(image), [(128, ACTIVE), (128, FREE)])

    # H: cut after 0, the clump becomes FREE and 4096 keeps its old word.
    def test_h_cut_after_0(self):
        image = self.pool_of_h()
        self.assertEqual(pool.activate(image, 16448, fuse=0), (11, 0, 0, 0, 0, 0))
        # The state, then the nbytes of both.
        self.assertEqual(pool.recover(image), (0, 0, 0, 2, 16384, 16400))
        self.assertEqual(pool.word(image, 4096), 55)
        self.assertEqual(tiles(image), [(256, FREE)])

    # I: free makes 4 stores and leaves FREE 768.
    def test_i(self):
        image = pool_of(clump(256, FREE), clump(256, ACTIVE), clump(256, FREE))
        # The states at 16648, the nbytes at 16640 and at 16384.
        self.assertEqual(pool.free(image, 16704), (0, 16704, 0, 4, 16384, 16656))
        self.assertEqual(tiles(image), [(768, FREE)])

    # J: activate 16448 then answers 10, place 0, 0 stores.
    def test_j(self):
        image = pool_of(clump(128, RESERVED, (16576, 5)), clump(128, ACTIVE))
        self.assertEqual(pool.free(image, 16576), (0, 16576, 0, 2, 16520, 16528))
        self.assertEqual(pool.activate(image, 16448), (10, 0, 0, 0, 0, 0))


# ---------------------------------------------------------------------------
# Rules with numbers of their own
# ---------------------------------------------------------------------------

class Creation(unittest.TestCase):

    # "1,033 stores", in the order of the page: each fuse adds the next word.
    def test_order_of_stores(self):
        offsets = ([12288] + list(range(4096, 8192, 8)) + list(range(12296, 16384, 8))
                   + list(range(16384, 16448, 8)) + [12288])
        self.assertEqual(len(offsets), 1033)
        dust = bytearray(b"\xa5" * 16512)
        self.assertEqual(pool.create(bytearray(dust)), (0, 0, 0, 1033, 4096, 16448))
        for fuse, offset in enumerate(offsets):
            before = after(dust, "create", fuse=fuse)
            self.assertEqual(changed_words(before, after(dust, "create", fuse=fuse + 1)),
                             [offset])

    # "Cut after 1 to 1,032, the image is no pool (answer 1)."
    def test_cut_creation_is_no_pool(self):
        old = pool_of(clump(128, ACTIVE), clump(128, RESERVED))
        for fuse in range(1, 1033):
            image = bytearray(old)
            self.assertEqual(pool.create(image, fuse=fuse)[:4], (11, 0, 0, fuse))
            self.assertEqual(pool.check(image), ((1, 0, 0, 0, 0, 0), (0, 0, 0, 0, 0)))
        self.assertEqual(pool.check(after(old, "create", fuse=0))[0].answer, 0)

    def test_created_pool(self):
        image = fresh(16512)
        self.assertEqual(image[12288:12304], b"*PMEMALLOC_POOL\0")
        self.assertEqual(pool.word(image, 12304), 16512)
        self.assertEqual(pool.check(image), ((0, 0, 0, 0, 0, 0), (128, 0, 0, 0, 0)))

    def test_only_the_length_matters(self):
        for length in (0, 8, 63, 64, 12288, 16448, 16511, 16513, 16520, 65535):
            self.assertEqual(pool.create(bytearray(length)), (1, 0, 0, 0, 0, 0))
        for length in (16512, 16576, 32768, 65472, 65536):
            self.assertEqual(pool.create(bytearray(b"\xff" * length)),
                             (0, 0, 0, 1033, 4096, 16448))


class Soundness(unittest.TestCase):

    def assert_fault(self, image, fault, place):
        self.assertEqual(pool.check(image), ((2, place, fault, 0, 0, 0), (0, 0, 0, 0, 0)))
        self.assertEqual(pool.recover(image), (2, place, fault, 0, 0, 0))

    # Clumps at 16384, 16512 and 16704.
    def three(self, middle_state=RESERVED, *entries):
        return pool_of(clump(128, ACTIVE), clump(192, middle_state, *entries),
                       clump(128, FREE))

    def test_size(self):
        for nbytes in (0, 64, 127, 129, 136, 384, 2**63, 2**64 - 64, 2**64 - 1):
            self.assert_fault(with_words(self.three(), {16512: nbytes}), 1, 16512)

    def test_state(self):
        for state in (5, 256, 2**32, LARGEST):
            self.assert_fault(with_words(self.three(), {16520: state}), 2, 16512)

    def test_list(self):
        for target in (1, 4088, 4100, 8192, 16376, 16828, 16832, LARGEST):
            self.assert_fault(self.three(RESERVED, (target, 1)), 3, 16512)
        for target in (4096, 8184, 16384, 16824):
            self.assertEqual(pool.check(self.three(ACTIVE, (target, 1)))[0].answer, 0)

    def test_second_unfinished(self):
        image = pool_of(clump(128, FREEING), clump(128, ACTIVE), clump(128, ACTIVATING))
        self.assert_fault(image, 4, 16640)

    def test_pending_target(self):
        # A header word, a FREE body, past the static area.
        for target in (16512, 16768, 8192, 4092):
            self.assert_fault(self.three(ACTIVATING, (0, 1), (target, 1)), 5, 16512)
        for target in (4096, 8184, 16448, 16504, 16576, 16696):
            image = self.three(FREEING, (0, 1), (target, 1))
            self.assertEqual(pool.check(image)[0].answer, 0)

    def test_order(self):
        # The lower clump's list comes before the higher one's size.
        low_list = with_words(self.three(RESERVED, (1, 1)), {16704: 0})
        self.assert_fault(low_list, 3, 16512)
        # Any size, state or list comes before 4 and 5, 4 before 5.
        both = pool_of(clump(128, ACTIVATING, (8, 1)), clump(128, FREEING, (8, 1)),
                       clump(128, ACTIVE))
        self.assert_fault(both, 4, 16512)
        self.assert_fault(with_words(both, {16648: 9}), 2, 16640)

    # "They add up to length minus 16384."
    def test_totals(self):
        image = pool_of(clump(128, FREE), clump(192, RESERVED), clump(256, ACTIVATING),
                        clump(320, ACTIVE), clump(384, RESERVED), clump(448, FREE))
        self.assertEqual(pool.check(image)[1], (576, 576, 256, 320, 0))
        dice = Dice(7)
        for at in range(300):
            image = cases.sound_pool(dice, settled=at % 2 == 0)
            answer, totals = pool.check(image)
            self.assertEqual(answer, (0, 0, 0, 0, 0, 0))
            self.assertEqual(sum(totals), len(image) - 16384)


# What is expected of a request's stores, each of which changes its word.
class WordByWord(unittest.TestCase):

    def assert_order(self, image, name, numbers, expected):
        for fuse in range(len(expected)):
            before = after(image, name, *numbers, fuse=fuse)
            behind = after(image, name, *numbers, fuse=fuse + 1)
            offset, value = expected[fuse]
            self.assertEqual(changed_words(before, behind), [offset])
            self.assertEqual(pool.word(behind, offset), value)
        whole = pool.ask(bytearray(image), name, numbers)
        self.assertEqual((whole.answer, whole.stores), (0, len(expected)))


class Stores(WordByWord):

    # Free of an ACTIVE clump with three entries between FREE neighbours, word by
    # word: "At most 7 stores."
    def test_order_of_the_longest_free(self):
        image = pool_of(clump(128, FREE), clump(128, ACTIVE, (4096, 1), (4104, 2), (4112, 3)),
                        clump(128, FREE))
        expected = [(16520, 4), (4096, 1), (4104, 2), (4112, 3), (16520, 0), (16512, 256),
                    (16384, 384)]
        self.assert_order(image, "free", (16576,), expected)

    def test_order_of_the_longest_activation(self):
        image = pool_of(clump(128, RESERVED, (4096, 1), (4104, 2), (4112, 3)))
        expected = [(16392, 2), (4096, 1), (4104, 2), (4112, 3), (16400, 0), (16416, 0),
                    (16432, 0), (16392, 3)]
        self.assert_order(image, "activate", (16448,), expected)

    def test_order_of_a_split(self):
        image = pool_of(clump(512, FREE, (1, 1), (2, 2), (3, 3)))
        image = with_words(image, {16520: 77})
        expected = [(16512, 384), (16520, 0), (16400, 0), (16416, 0), (16432, 0),
                    (16384, 128), (16392, 1)]
        self.assert_order(image, "reserve_uncleared", (64,), expected)

    def test_order_of_a_recovery(self):
        image = pool_of(clump(128, RESERVED), clump(128, FREEING, (4096, 1)),
                        clump(128, ACTIVE), clump(128, RESERVED), clump(128, FREE))
        expected = [(4096, 1), (16520, 0), (16392, 0), (16776, 0), (16384, 256), (16768, 256)]
        self.assert_order(image, "recover", (), expected)

    def test_order_of_an_entry(self):
        image = pool_of(clump(128, ACTIVE, (4096, 1)))
        self.assert_order(image, "onfree", (16448, 16504, 6), [(16424, 6), (16416, 16505)])


# ---------------------------------------------------------------------------
# W1: "Tell the driver which bytes to flush."
# ---------------------------------------------------------------------------

class BytesToFlush(unittest.TestCase):

    # What is expected at each fuse from 0 to the length of the list of stores.
    def assert_at_every_cut(self, image, name, numbers, *expected):
        for fuse, flushed in enumerate(expected):
            given = pool.ask(bytearray(image), name, numbers, fuse)
            self.assertEqual((given.stores, given.flush_from, given.flush_to),
                             (fuse, *flushed))
        self.assertEqual(given.answer, 0)
        self.assertEqual(pool.ask(bytearray(image), name, numbers), given)

    # A cut that has no word changed, but stores to flush.
    def assert_kept(self, image, name, numbers, fuse, flushed):
        cut = bytearray(image)
        self.assertEqual(pool.ask(cut, name, numbers, fuse), (11, 0, 0, fuse, *flushed))
        self.assertEqual(cut, image)

    # "A finished create gives 4096 and 16448."
    def test_create(self):
        for length in (16512, 32768, 65536):
            self.assertEqual(pool.create(bytearray(length))[4:], (4096, 16448))

    # The first word at 12288; with the static words from 4096 on; with the header
    # page up to 16383; with the eight words at 16384.
    def test_create_cut(self):
        for fuse, flushed in ((0, (0, 0)), (1, (12288, 12296)), (513, (4096, 12296)),
                              (1024, (4096, 16384)), (1032, (4096, 16448))):
            given = pool.create(filled(16512, 165), fuse=fuse)
            self.assertEqual(given, (11, 0, 0, fuse, *flushed))

    # The second store is at 4096, the lowest offset of all.  The static words lie
    # below 12288, so the end waits for store 514; from there it goes up by a word
    # with each store.
    def test_create_at_every_cut(self):
        for fuse in range(2, 1033):
            end = 12296 if fuse <= 513 else 12296 + 8 * (fuse - 513)
            self.assertEqual(pool.create(filled(16512, 165), fuse=fuse)[4:], (4096, end))

    # 01's case H: state; the static word twice; two targets emptied; state again.
    def test_h(self):
        image = pool_of(clump(256, RESERVED, (4096, 7), (4096, 9)))
        self.assert_at_every_cut(
            image, "activate", (16448,), (0, 0), (16392, 16400), (4096, 16400),
            (4096, 16400), (4096, 16408), (4096, 16424), (4096, 16424))

    # The state at 16520; a lower body, a higher one (the last word of the image), its
    # own body.  The list and the state again lie between.  The static area has no
    # target, so the range starts above it.
    def test_activate_bodies(self):
        image = pool_of(clump(128, ACTIVE),
                        clump(128, RESERVED, (16456, 1), (16760, 2), (16576, 3)),
                        clump(128, ACTIVE))
        self.assertEqual(len(image), 16768)
        self.assert_at_every_cut(
            image, "activate", (16576,), (0, 0), (16520, 16528), (16456, 16528),
            *[(16456, 16768)] * 6)

    # The rest's header at 16512, the targets at 16400, 16416 and 16432, the nbytes
    # at 16384, the state at 16392.  The body's eight words, from 16448 on, lie between
    # them.
    def test_reserve_with_a_split(self):
        image = pool_of(clump(512, FREE, (1, 1), (2, 2), (3, 3)))
        for name, zeros in (("reserve_uncleared", 0), ("reserve", 8)):
            self.assert_at_every_cut(
                image, name, (64,), (0, 0), (16512, 16520), (16512, 16528),
                (16400, 16528), (16400, 16528), (16400, 16528), (16384, 16528),
                *[(16384, 16528)] * zeros, (16384, 16528))

    # The targets upward from 16528, then the state at 16520; nbytes isn't stored.
    def test_reserve_of_a_whole_clump(self):
        image = pool_of(clump(128, ACTIVE), clump(192, FREE, (1, 1), (2, 2), (3, 3)))
        self.assert_at_every_cut(
            image, "reserve_uncleared", (100,), (0, 0), (16528, 16536), (16528, 16552),
            (16528, 16568), (16520, 16568))

    # The same with the body's sixteen words, from 16576 on: the end goes up by a word
    # with each.
    def test_reserve_of_a_whole_clump_cleared(self):
        image = pool_of(clump(128, ACTIVE), clump(192, FREE, (1, 1), (2, 2), (3, 3)))
        self.assert_at_every_cut(
            image, "reserve", (100,), (0, 0), (16528, 16536), (16528, 16552),
            (16528, 16568), *((16528, end) for end in range(16584, 16712, 8)),
            (16520, 16704))

    # The value of the second entry at 16424, then its target at 16416.  The word
    # that the target names isn't stored to.
    def test_onactive(self):
        image = pool_of(clump(128, RESERVED, (4096, 1)))
        self.assert_at_every_cut(image, "onactive", (16448, 8184, 5),
                                 (0, 0), (16424, 16432), (16416, 16432))

    # The third entry, of a clump at 16512: the value at 16568, the target at 16560.
    def test_onfree(self):
        image = pool_of(clump(128, FREE), clump(128, ACTIVE, (4096, 1), (4096, 2)))
        self.assert_at_every_cut(image, "onfree", (16576, 4096, 5),
                                 (0, 0), (16568, 16576), (16560, 16576))

    # The target of the second entry, one word.
    def test_withdraw(self):
        for state in (RESERVED, ACTIVE):
            image = pool_of(clump(128, state, (4096, 1), (4104, 2)))
            self.assert_at_every_cut(image, "withdraw", (16448,), (0, 0), (16416, 16424))

    # The clump is at 16512, so its state is at 16520: FREEING, then FREE.
    def test_free_without_a_join(self):
        image = pool_of(clump(128, ACTIVE), clump(128, ACTIVE), clump(128, ACTIVE))
        self.assert_at_every_cut(image, "free", (16576,), (0, 0), (16520, 16528),
                                 (16520, 16528))

    # Joined to the one below: that one's nbytes is at 16384.
    def test_free_that_joins_below(self):
        image = pool_of(clump(128, FREE), clump(128, ACTIVE), clump(128, ACTIVE))
        self.assert_at_every_cut(image, "free", (16576,), (0, 0), (16520, 16528),
                                 (16520, 16528), (16384, 16528))

    # Joined to the one above: its own nbytes at 16512, nothing of the one above.
    def test_free_that_joins_above(self):
        image = pool_of(clump(128, ACTIVE), clump(128, ACTIVE), clump(128, FREE))
        self.assert_at_every_cut(image, "free", (16576,), (0, 0), (16520, 16528),
                                 (16520, 16528), (16512, 16528))

    # Both joins; a RESERVED clump has one state to store and drops its list.
    def test_free_of_reserved_that_joins_both(self):
        image = pool_of(clump(128, FREE), clump(128, RESERVED, (4096, 1)), clump(128, FREE))
        self.assert_at_every_cut(image, "free", (16576,), (0, 0), (16520, 16528),
                                 (16512, 16528), (16384, 16528))

    # An assignment above the clump, one in the static area, then the join below.
    def test_free_with_a_list(self):
        image = pool_of(clump(128, FREE), clump(128, ACTIVE, (16704, 1), (8184, 2)),
                        clump(128, ACTIVE))
        self.assert_at_every_cut(image, "free", (16576,), (0, 0), (16520, 16528),
                                 (16520, 16712), (8184, 16712), (8184, 16712),
                                 (8184, 16712))

    # The rest's header at 16576, then the nbytes at 16384, lower down.
    def test_grow_with_a_rest(self):
        image = pool_of(clump(128, ACTIVE), clump(512, FREE))
        self.assert_at_every_cut(image, "grow", (16448, 65), (0, 0), (16576, 16584),
                                 (16576, 16592), (16384, 16592))

    # The nbytes at 16512 alone, however many bytes were added.
    def test_grow_without_a_rest(self):
        image = pool_of(clump(128, ACTIVE), clump(128, RESERVED), clump(1024, FREE))
        for size in (1024, 1025, 1088):
            self.assert_at_every_cut(image, "grow", (16576, size), (0, 0), (16512, 16520))

    # "Both are 0 when nothing was stored."  Enough is enough with any fuse.
    def test_grow_with_nothing_to_do(self):
        image = pool_of(clump(128, ACTIVE), clump(1024, FREE))
        for fuse in (0, 1, LARGEST):
            self.assertEqual(pool.grow(bytearray(image), 16448, 64, fuse=fuse),
                             (0, 16448, 0, 0, 0, 0))

    # The assignment to 4096; the states at 16520, 16392 and 16776; the nbytes of
    # the two runs at 16384 and 16768.
    def test_recover(self):
        image = pool_of(clump(128, RESERVED), clump(128, FREEING, (4096, 1)),
                        clump(128, ACTIVE), clump(128, RESERVED), clump(128, FREE))
        self.assert_at_every_cut(
            image, "recover", (), (0, 0), (4096, 4104), (4096, 16528), (4096, 16528),
            (4096, 16784), (4096, 16784), (4096, 16784))

    # The lowest clump and the highest have nothing to be done.
    def test_recover_in_the_middle(self):
        image = pool_of(clump(128, ACTIVE), clump(128, RESERVED), clump(128, FREE),
                        clump(128, ACTIVE))
        self.assert_at_every_cut(image, "recover", (), (0, 0), (16520, 16528),
                                 (16512, 16528))

    # "Both are 0 when nothing was stored."  Nothing to do is done with any fuse.
    def test_recover_with_nothing_to_do(self):
        image = pool_of(clump(128, ACTIVE, (4096, 1)), clump(128, FREE))
        for fuse in (0, 1, LARGEST):
            self.assertEqual(pool.recover(bytearray(image), fuse=fuse), (0, 0, 0, 0, 0, 0))

    def test_check(self):
        self.assertEqual(pool.ask(bytearray(MIXED), "check", ()), (0, 0, 0, 0, 0, 0))

    # "This joins the shared answer, refusals included": 1 to 10, with any fuse.
    def test_refusals(self):
        refused = (
            (1, 0, 0, bytearray(64), "create", ()),
            (1, 0, 0, bytearray(16512), "recover", ()),
            (2, 16640, 2, with_words(MIXED, {16648: 5}), "check", ()),
            (2, 16640, 2, with_words(MIXED, {16648: 5}), "recover", ()),
            (3, 0, 0, with_words(MIXED, {16392: FREEING}), "reserve", (1,)),
            (4, 0, 0, MIXED, "reserve", (0,)),
            (5, 0, 0, MIXED, "reserve", (1000,)),
            (2, 16640, 2, with_words(MIXED, {16648: 5}), "reserve_uncleared", (1,)),
            (3, 0, 0, with_words(MIXED, {16392: FREEING}), "reserve_uncleared", (1,)),
            (4, 0, 0, MIXED, "reserve_uncleared", (0,)),
            (5, 0, 0, MIXED, "reserve_uncleared", (1000,)),
            (6, 0, 0, MIXED, "activate", (16384,)),
            (7, 0, 0, MIXED, "free", (MIXED_FREE,)),
            (8, 0, 0, MIXED, "onactive", (MIXED_RESERVED, 4096, 1)),
            (9, 0, 0, MIXED, "withdraw", (MIXED_BARE_ACTIVE,)),
            (10, 0, 0, MIXED, "onfree", (MIXED_ACTIVE, 8192, 1)),
            (1, 0, 0, bytearray(16512), "grow", (16448, 1)),
            (2, 16640, 2, with_words(MIXED, {16648: 5}), "grow", (MIXED_ACTIVE, 200)),
            (3, 0, 0, with_words(MIXED, {16392: FREEING}), "grow", (MIXED_ACTIVE, 200)),
            (4, 0, 0, MIXED, "grow", (MIXED_ACTIVE, 0)),
            (5, 0, 0, MIXED, "grow", (MIXED_ACTIVE, 385)),
            (6, 0, 0, MIXED, "grow", (16384, 200)),
            (7, 0, 0, MIXED, "grow", (MIXED_FREE, 200)))
        for answer, place, fault, image, name, numbers in refused:
            for fuse in (0, 1, LARGEST):
                self.assertEqual(pool.ask(bytearray(image), name, numbers, fuse),
                                 (answer, place, fault, 0, 0, 0))

    # "A store that keeps a word's value still counts."  Zeros over zeros: the
    # first word of create, then its static words too.
    def test_kept_by_create(self):
        for fuse, flushed in ((1, (12288, 12296)), (2, (4096, 12296)),
                              (513, (4096, 12296))):
            self.assert_kept(bytearray(16512), "create", (), fuse, flushed)

    # A finished create over the pool that it makes has every word as before.
    def test_kept_by_a_finished_create(self):
        image = fresh(16512)
        self.assertEqual(pool.create(image), (0, 0, 0, 1033, 4096, 16448))
        self.assertEqual(image, fresh(16512))

    # The three targets of an empty list, at 16400, 16416 and 16432; then, in the first
    # form, the eight words of a body of zeros, at 16448 to 16504.
    def test_kept_by_reserve(self):
        image = pool_of(clump(128, FREE))
        for fuse, flushed in ((1, (16400, 16408)), (2, (16400, 16424)),
                              (3, (16400, 16440))):
            self.assert_kept(image, "reserve", (64,), fuse, flushed)
            self.assert_kept(image, "reserve_uncleared", (64,), fuse, flushed)
        for fuse, flushed in ((4, (16400, 16456)), (5, (16400, 16464)),
                              (11, (16400, 16512))):
            self.assert_kept(image, "reserve", (64,), fuse, flushed)

    # The value that the empty entry has kept.
    def test_kept_by_onactive(self):
        image = pool_of(clump(128, RESERVED, (0, 999)))
        self.assert_kept(image, "onactive", (16448, 4096, 999), 1, (16408, 16416))

    # The rest's header that stands there already.
    def test_kept_by_grow(self):
        image = pool_of(clump(128, ACTIVE), clump(512, FREE))
        image = with_words(image, {16576: 448})
        for fuse, flushed in ((1, (16576, 16584)), (2, (16576, 16592))):
            self.assert_kept(image, "grow", (16448, 65), fuse, flushed)

    # A target that holds the value already, assigned again by recovery.
    def test_kept_by_recover(self):
        image = pool_of(clump(128, ACTIVATING, (4096, 7), (16504, 8)))
        image = with_words(image, {4096: 7, 16504: 8})
        for fuse, flushed in ((1, (4096, 4104)), (2, (4096, 16512))):
            self.assert_kept(image, "recover", (), fuse, flushed)


# ---------------------------------------------------------------------------
# W4: "onfree before activation"
# ---------------------------------------------------------------------------

def recovered(image):
    return after(image, "recover")


# The stored words of the list of the clump with its header at the offset.
def stored_words(image, offset):
    return [pool.word(image, offset + at) for at in (16, 32, 48)]


class OnfreeBeforeActivation(WordByWord):

    def assert_answer(self, answer, image, name, *numbers):
        self.assertEqual(pool.ask(bytearray(image), name, numbers).answer, answer)

    def assert_fault(self, fault, place, image):
        self.assertEqual(pool.check(image)[0], (2, place, fault, 0, 0, 0))

    # The clump with the entries at 16384 (body 16448), one with a FREE body (16576),
    # and an ACTIVE one, which is the last.
    def beside_free(self, state, *entries):
        return pool_of(clump(128, state, *entries), clump(128, FREE), clump(128, ACTIVE))

    # "Source document 003 lets reserved memory be freed with its onfree assignments
    # carried out [..].  Mend it so."
    def test_reserved_memory_is_freed_with_its_assignments(self):
        image = fresh(32768)
        pool.reserve(image, 64)
        pool.onfree(image, 16448, 4096, 7)
        self.assertEqual(pool.free(image, 16448), (0, 16448, 0, 4, 4096, 16400))
        self.assertEqual(pool.word(image, 4096), 7)
        self.assertEqual(tiles(image), [(16384, FREE)])

    # "Bit 0 of a stored target marks an onfree entry; the target is the number without
    # it, and only a stored 0 is empty."
    def test_bit_0(self):
        image = pool_of(clump(128, RESERVED, (4097, 7), (0, 8), (4104, 9)))
        (one,) = pool.walk(image)
        self.assertEqual([pool.is_marked(entry) for entry in one.entries], [True, False, False])
        self.assertEqual([pool.target_of(entry) for entry in one.entries], [4096, 0, 4104])
        self.assertEqual([pool.is_used(entry) for entry in one.entries], [True, False, True])
        self.assert_order(image, "free", (16448,),
                          [(16432, 0), (16392, 4), (4096, 7), (16392, 0)])

    # A stored 1 isn't empty: its target is 0, which is out of range and not valid.  A
    # stored 3 or 4099 is marked too, and its target isn't divisible by 8.
    def test_only_a_stored_0_is_empty(self):
        for stored in (1, 3, 4099, 4101):
            for state, fault in ((RESERVED, 3), (ACTIVATING, 3), (ACTIVE, 3), (FREEING, 5)):
                self.assert_fault(fault, 16384, self.beside_free(state, (stored, 1)))
            self.assert_answer(0, pool_of(clump(128, FREE, (stored, 1))), "check")

    # "Onfree always writes it and now takes RESERVED too."
    def test_onfree_writes_it(self):
        for state in (RESERVED, ACTIVE):
            image = pool_of(clump(128, state))
            self.assert_order(image, "onfree", (16448, 4096, 6), [(16408, 6), (16400, 4097)])
        self.assert_answer(7, pool_of(clump(128, FREE)), "onfree", 16448, 4096, 6)
        for state in (ACTIVATING, FREEING):
            self.assert_answer(3, pool_of(clump(128, state)), "onfree", 16448, 4096, 6)

    # Onactive never writes it, and still takes RESERVED alone.
    def test_onactive_does_not(self):
        image = pool_of(clump(128, RESERVED))
        self.assert_order(image, "onactive", (16448, 4096, 6), [(16408, 6), (16400, 4096)])
        self.assert_answer(7, pool_of(clump(128, ACTIVE)), "onactive", 16448, 4096, 6)

    # The mark is one of "a stored target": a target asked for with bit 0 set isn't
    # divisible by 8.
    def test_odd_targets_asked_for(self):
        for target in (1, 4097, 8185, 16449, LARGEST):
            self.assert_answer(10, pool_of(clump(128, RESERVED)), "onactive", 16448, target, 1)
            for state in (RESERVED, ACTIVE):
                self.assert_answer(10, pool_of(clump(128, state)), "onfree", 16448, target, 1)

    # "A new entry goes after the last used one, answer 8 if that is the third."
    def test_a_new_entry(self):
        for mixture in MIXTURES:
            last = max([at + 1 for at in range(3) if mixture[at] != EMPTY], default=0)
            for state, name, mark in ((RESERVED, "onactive", 0), (RESERVED, "onfree", 1),
                                      (ACTIVE, "onfree", 1)):
                image = mixture_pool(state, mixture)
                if last == 3:
                    self.assert_answer(8, image, name, 16576, 8184, 5)
                    self.assert_answer(8, image, name, 16576, 8192, 5)
                else:
                    at = 16512 + 16 + 16 * last
                    self.assert_order(image, name, (16576, 8184, 5),
                                      [(at + 8, 5), (at, 8184 + mark)])

    # "0 to the last used target", marked or not.
    def test_withdraw(self):
        for mixture in MIXTURES:
            used = [at for at in range(3) if mixture[at] != EMPTY]
            for state in (RESERVED, ACTIVE):
                image = mixture_pool(state, mixture)
                if used:
                    self.assert_order(image, "withdraw", (16576,),
                                      [(16512 + 16 + 16 * used[-1], 0)])
                else:
                    self.assert_answer(9, image, "withdraw", 16576)

    # "Gaps are now sound in every state."
    def test_gaps(self):
        for mixture in MIXTURES:
            for state in range(5):
                self.assert_answer(0, mixture_pool(state, mixture), "check")

    # "Activate, and recovery of an ACTIVATING clump, judge, carry out and empty the
    # unmarked entries; marked ones wait".
    def test_activate(self):
        image = pool_of(clump(128, RESERVED, (4096, 1), (4105, 2), (4112, 3)))
        finish = [(4096, 1), (4112, 3), (16400, 0), (16432, 0), (16392, 3)]
        self.assert_order(image, "activate", (16448,), [(16392, 2)] + finish)
        self.assertEqual(stored_words(after(image, "activate", 16448), 16384), [0, 4105, 0])
        activating = with_words(image, {16392: ACTIVATING})
        self.assert_order(activating, "recover", (), finish)

    # The same of each mixture: 2 + 2e stores, with e unmarked entries.
    def test_marked_ones_wait(self):
        for mixture in MIXTURES:
            image = mixture_pool(RESERVED, mixture)
            waiting = [4097 + 8 * at if mixture[at] == MARKED else 0 for at in range(3)]
            assigned = [71 + at if mixture[at] == UNMARKED else 0 for at in range(3)]
            count = mixture.count(UNMARKED)
            self.assertEqual(stores_of(image, "activate", (16576,)), 2 + 2 * count)
            activating = with_words(image, {16520: ACTIVATING})
            self.assertEqual(stores_of(activating, "recover", ()), 1 + 2 * count)
            for behind in (after(image, "activate", 16576), recovered(activating)):
                self.assertEqual(stored_words(behind, 16512), waiting)
                self.assertEqual([pool.word(behind, 4096 + 8 * at) for at in range(3)], assigned)
                self.assertEqual(tiles(behind), [(128, ACTIVE)] * 3)

    # Activate judges "the unmarked entries": 16576 lies in a FREE body.
    def test_activate_judges_the_unmarked(self):
        self.assert_answer(10, self.beside_free(RESERVED, (16576, 1)), "activate", 16448)
        self.assert_answer(10, self.beside_free(RESERVED, (4097, 1), (16576, 2)),
                           "activate", 16448)
        self.assert_answer(0, self.beside_free(RESERVED, (16577, 1)), "activate", 16448)
        self.assert_answer(0, self.beside_free(RESERVED, (4096, 1), (16577, 2)),
                           "activate", 16448)

    # "judged there by the rest of fault 3": by range alone, and with faults 1 to 3.
    def test_waiting_entries_are_judged_by_range(self):
        for target in (0, 4088, 4098, 8192, 16376, 16768, 2**63 + 4096):
            image = self.beside_free(ACTIVATING, (0, 1), (target + 1, 1))
            self.assert_fault(3, 16384, image)
            self.assert_fault(3, 16384, with_words(image, {16648: FREEING}))
            self.assert_fault(3, 16384, with_words(image, {16640: 64}))
        # Headers, a FREE body, live bodies, the ends of the static area and the image.
        for target in (4096, 8184, 16384, 16448, 16512, 16576, 16760):
            image = self.beside_free(ACTIVATING, (0, 1), (target + 1, 1))
            self.assert_answer(0, image, "check")
            self.assertEqual(stored_words(recovered(image), 16384), [0, target + 1, 0])

    # The unmarked entries of an ACTIVATING clump are fault 5's, not fault 3's.
    def test_unmarked_entries_are_judged_by_validity(self):
        for target in (4088, 4098, 8192, 16384, 16512, 16576, 16768):
            self.assert_fault(5, 16384, self.beside_free(ACTIVATING, (4097, 1), (target, 1)))
        both = self.beside_free(ACTIVATING, (16576, 1), (8193, 1))
        self.assert_fault(3, 16384, both)

    # "fault 5 looks at them only in a FREEING clump."
    def test_marked_entries_in_a_freeing_clump(self):
        for target in (0, 4088, 4098, 8192, 16384, 16512, 16576, 16768):
            self.assert_fault(5, 16384, self.beside_free(FREEING, (4096, 1), (target + 1, 1)))
        for target in (4096, 8184, 16448, 16704, 16760):
            self.assert_answer(0, self.beside_free(FREEING, (target + 1, 1)), "check")

    # "An unmarked entry of an ACTIVE or FREEING clump is an old onfree and counts as
    # one."  All are carried out in list order.
    def test_old_onfree(self):
        for mixture in MIXTURES:
            listed = [(4096 + 8 * at, 71 + at) for at in range(3) if mixture[at] != EMPTY]
            active = mixture_pool(ACTIVE, mixture)
            self.assert_order(active, "free", (16576,), [(16520, 4)] + listed + [(16520, 0)])
            freeing = mixture_pool(FREEING, mixture)
            self.assert_order(freeing, "recover", (), listed + [(16520, 0)])

    # It is judged as one too, like the marked ones: 10 if any isn't valid.
    def test_free_of_active_judges_all(self):
        for stored in (16576, 16577):
            self.assert_answer(10, self.beside_free(ACTIVE, (4097, 1), (stored, 1)),
                               "free", 16448)

    # "Free of a RESERVED clump with no marked entry stays as in 01": one store.
    def test_free_of_reserved_with_no_marked_entry(self):
        for mixture in MIXTURES:
            if MARKED not in mixture:
                self.assert_order(mixture_pool(RESERVED, mixture), "free", (16576,),
                                  [(16520, 0)])
        self.assert_answer(0, self.beside_free(RESERVED, (16576, 1)), "free", 16448)

    # "otherwise it judges those, empties the unmarked ones first to last and goes by
    # FREEING": with 3 entries and both joins 7 stores, 01's "At most 7 stores."
    def test_free_of_reserved_goes_by_freeing(self):
        for mixture in MIXTURES:
            if MARKED in mixture:
                emptied = [(16528 + 16 * at, 0) for at in range(3) if mixture[at] == UNMARKED]
                listed = [(4096 + 8 * at, 71 + at) for at in range(3) if mixture[at] == MARKED]
                expected = (emptied + [(16520, 4)] + listed
                            + [(16520, 0), (16512, 256), (16384, 384)])
                self.assertLessEqual(len(expected), 7)
                self.assert_order(mixture_pool(RESERVED, mixture, FREE, FREE), "free", (16576,),
                                  expected)

    # It judges the marked ones, and not the unmarked ones, which it drops.
    def test_free_of_reserved_judges_the_marked(self):
        self.assert_answer(10, self.beside_free(RESERVED, (16577, 1)), "free", 16448)
        self.assert_answer(10, self.beside_free(RESERVED, (4096, 1), (4097, 1), (16577, 1)),
                           "free", 16448)
        self.assert_answer(0, self.beside_free(RESERVED, (16576, 1), (4097, 1)), "free", 16448)

    # "Cut before the FREEING store, it reads as not asked."  From that store on it
    # reads as finished.  Without a mark, 01's rule: the first store.
    def test_turning_store(self):
        for mixture in MIXTURES:
            image = mixture_pool(RESERVED, mixture)
            turn = mixture.count(UNMARKED) + 1 if MARKED in mixture else 1
            self.assertEqual(pool.turning_store(image, "free", (16576,)), turn)
            self.assertEqual(pool.turning_store(image, "activate", (16576,)), 1)
            active = mixture_pool(ACTIVE, mixture)
            self.assertEqual(pool.turning_store(active, "free", (16576,)), 1)
            if MARKED in mixture:
                before = after(image, "free", 16576, fuse=turn - 1)
                behind = after(image, "free", 16576, fuse=turn)
                self.assertEqual(tiles(before)[1], (128, RESERVED))
                self.assertEqual(tiles(behind)[1], (128, FREEING))
                self.assertEqual(recovered(before)[4096:8192], bytes(4096))
                self.assertEqual(recovered(behind)[4096:8192],
                                 after(image, "free", 16576)[4096:8192])
                self.assertNotEqual(recovered(behind)[4096:8192], bytes(4096))
        for name, numbers in (("reserve", (1,)), ("reserve_uncleared", (1,)),
                              ("onactive", (16576, 4096, 1)),
                              ("onfree", (16576, 4096, 1)), ("withdraw", (16576,)),
                              ("recover", ())):
            self.assertEqual(pool.turning_store(mixture_pool(RESERVED, (UNMARKED, MARKED, EMPTY)),
                                                name, numbers), 0)

    # "Recovery of a RESERVED clump still carries out nothing."
    def test_recovery_of_reserved(self):
        for mixture in MIXTURES:
            self.assert_order(mixture_pool(RESERVED, mixture), "recover", (), [(16520, 0)])

    # The reading gives each used entry with its place, mark, target and value.
    def test_reading(self):
        image = pool_of(clump(128, ACTIVE, (4096, 1), (0, 2), (4097, 3)),
                        clump(128, ACTIVATING, (4096, 4)), clump(128, RESERVED, (0, 5)))
        lists = pool.reading(image)[1]
        self.assertEqual(lists, [(16384, [(16400, False, 4096, 1), (16432, True, 4096, 3)]),
                                 (16640, [])])
        # An entry at another place is another reading, since answer 8 tells them apart.
        one = pool_of(clump(128, ACTIVE, (4097, 1)))
        other = pool_of(clump(128, ACTIVE, (0, 1), (0, 1), (4097, 1)))
        self.assertNotEqual(pool.reading(one), pool.reading(other))
        self.assert_answer(0, one, "onfree", 16448, 4096, 1)
        self.assert_answer(8, other, "onfree", 16448, 4096, 1)

    # The last one of equal targets wins, among those that are carried out together.
    def test_equal_targets(self):
        entries = mixed_entries((UNMARKED, MARKED, UNMARKED), (4096, 4096, 4096))
        reserved = pool_of(clump(128, RESERVED, *entries))
        active = after(reserved, "activate", 16448)
        self.assertEqual(pool.word(active, 4096), 73)
        self.assertEqual(pool.word(after(active, "free", 16448), 4096), 72)
        self.assertEqual(pool.word(after(reserved, "free", 16448), 4096), 72)
        old = pool_of(clump(128, ACTIVE, *entries))
        self.assertEqual(pool.word(after(old, "free", 16448), 4096), 73)


# The requests that each mixture is asked: (image, name, numbers).
def mixtures_asked():
    for mixture in MIXTURES:
        for neighbours in ((ACTIVE, ACTIVE), (FREE, FREE), (RESERVED, FREE)):
            for state in (RESERVED, ACTIVE):
                image = dusty(mixture_pool(state, mixture, *neighbours), 21)
                for name, numbers in (("reserve", (64,)), ("reserve_uncleared", (64,)),
                                      ("onactive", (16576, 4096, 1)),
                                      ("onfree", (16576, 16576, 1)), ("withdraw", (16576,)),
                                      ("activate", (16576,)), ("free", (16576,)),
                                      ("recover", ()), ("grow", (16576, 65))):
                    yield image, name, numbers
            for state in (ACTIVATING, FREEING):
                yield dusty(mixture_pool(state, mixture, *neighbours), 22), "recover", ()


class CutsOfMixtures(unittest.TestCase):

    # 01's rule for cuts, with W4's turn: after recovery the reading is that of
    # recovering the image before the request or the finished one, for every request
    # that isn't refused, at every cut, with every mixture of marks.  Every cut leaves a
    # sound pool.
    def test_reading_after_a_cut(self):
        tried = set()
        for image, name, numbers in mixtures_asked():
            given = pool.ask(bytearray(image), name, numbers)
            if given.answer != 0:
                continue
            readings = (pool.reading(recovered(image)),
                        pool.reading(recovered(after(image, name, *numbers))))
            for fuse in range(given.stores):
                cut = after(image, name, *numbers, fuse=fuse)
                self.assertEqual(pool.check(cut)[0].answer, 0)
                finished = pool.reads_as_finished(image, name, numbers, fuse)
                self.assertEqual(pool.reading(recovered(cut)), readings[finished])
                if readings[0] != readings[1]:
                    tried.add((name, finished))
        # Where the two readings differ, both are met.
        for name in ("activate", "free"):
            self.assertLessEqual({(name, False), (name, True)}, tried)
        # Grow's one store is its turn: each cut of it is undone.
        self.assertEqual({finished for name, finished in tried if name == "grow"}, {False})

    # A recovery that is cut, and recovered, reads as one that wasn't; a second one
    # makes no store.
    def test_recovery_after_a_cut(self):
        for image, name, numbers in mixtures_asked():
            if name not in ("activate", "free", "recover"):
                continue
            for fuse in range(pool.ask(bytearray(image), name, numbers).stores):
                cut = after(image, name, *numbers, fuse=fuse)
                whole = recovered(cut)
                self.assertEqual(stores_of(whole, "recover", ()), 0)
                for again in range(stores_of(cut, "recover", ())):
                    twice = recovered(after(cut, "recover", fuse=again))
                    self.assertEqual(pool.reading(twice), pool.reading(whole))


# ---------------------------------------------------------------------------
# W5: "Reserved bodies come cleared."
# ---------------------------------------------------------------------------

# A copy with old words in every body of a FREE clump.
def with_old_bodies(image, old):
    for one in pool.walk(image):
        if one.state == FREE:
            image = with_old_body(image, one.offset + 64, one.nbytes - 64, old)
    return image


# The body of the clump with the body at this offset, and its state.
def body_and_state(image, place):
    nbytes, state = pool.word(image, place - 64), pool.word(image, place - 56)
    return bytes(image[place:place - 64 + nbytes]), state


# Sound, settled pools by chance in which every FREE body has old words, and a size that
# fits: (image, size).
def dirty_pools(seed, wanted):
    dice = Dice(seed)
    while wanted:
        image = with_old_bodies(cases.sound_pool(dice, settled=True),
                                (OLD_RECORD, OLD_BYTES)[wanted % 2])
        size = dice.pick((1, 5, 63, 64, 65, 128, 129, 192, 320))
        if pool.reserve(bytearray(image), size).answer == 0:
            wanted -= 1
            yield image, size


class BodiesComeCleared(WordByWord):

    # The stores of both forms: what comes before, the zeros, and the state.
    def assert_forms(self, image, size, before, zeros, state):
        self.assert_order(image, "reserve_uncleared", (size,), before + [state])
        self.assert_order(image, "reserve", (size,), before + zeros + [state])

    # "Reserve stores 0 to every word of the body, upward, after the sizes are right and
    # before the state becomes RESERVED."  Of a FREE clump of 512 at 16512, with old
    # words in it: the rest's nbytes and state at 16640, three targets, nbytes.
    def test_order_of_a_split(self):
        image = dirty_pool(512, OLD_RECORD)
        before = [(16640, 384), (16648, 0), (16528, 0), (16544, 0), (16560, 0), (16512, 128)]
        zeros = [(16576, 0), (16584, 0), (16592, 0), (16600, 0), (16608, 0), (16616, 0),
                 (16624, 0), (16632, 0)]
        for size in (1, 5, 63, 64):
            self.assert_forms(image, size, before, zeros, (16520, 1))

    # Two units: the rest's header is at 16704, just behind the body.
    def test_order_of_a_split_for_two_units(self):
        image = dirty_pool(512, OLD_BYTES)
        before = [(16704, 320), (16712, 0), (16528, 0), (16544, 0), (16560, 0), (16512, 192)]
        zeros = [(at, 0) for at in range(16576, 16704, 8)]
        self.assert_forms(image, 65, before, zeros, (16520, 1))

    # Not split: "the whole clump is used", and its whole body is cleared, up to 16703,
    # also where one byte was asked for and the clump is 64 bytes larger than its need.
    def test_order_of_a_whole_clump(self):
        for old in (OLD_RECORD, OLD_BYTES):
            image = dirty_pool(192, old)
            before = [(16528, 0), (16544, 0), (16560, 0)]
            zeros = [(at, 0) for at in range(16576, 16704, 8)]
            for size in (1, 64, 65, 100, 128):
                self.assert_forms(image, size, before, zeros, (16520, 1))

    # "The store counts of 01 grow by body bytes divided by 8": from 7, or from 4.
    def test_counts(self):
        for nbytes in range(128, 1600, 64):
            image = pool_of(clump(nbytes, FREE))
            for need in range(128, nbytes + 1, 64):
                split = nbytes - need >= 128
                count, body = (7, need - 64) if split else (4, nbytes - 64)
                for size in (need - 64 - 63, need - 64 - 59, need - 64):
                    self.assertEqual([stores_of(image, name, (size,)) for name in FORMS],
                                     [count + body // 8, count])

    # After a finished reserve of the first form every byte of the new body is 0, and in
    # no image that a cut of it leaves is the new clump RESERVED while a byte of its body
    # is not 0.
    def assert_cleared(self, image, size):
        given = pool.reserve(bytearray(image), size)
        for fuse in range(given.stores + 1):
            cut = after(image, "reserve", size, fuse=fuse)
            body, state = body_and_state(cut, given.place)
            self.assertTrue(state != RESERVED or not any(body))
        # The last one is the finished one.
        self.assertEqual((state, body), (RESERVED, bytes(len(body))))
        self.assertGreaterEqual(len(body), size)

    def test_cleared(self):
        for image, size in dirty_pools(41, 100):
            self.assert_cleared(image, size)

    # A pool made over other bytes: create stores nothing into the bodies, so that every
    # byte of them is an old one.  (No case can hold such a pool: its zero padding alone
    # is more words than a case has room for.)
    def test_cleared_over_a_fill(self):
        for fill in (1, 165, 255):
            image = filled(16832, fill)
            pool.create(image)
            for size in (1, 64, 65, 256, 320, 384):
                self.assert_cleared(image, size)
                kept = after(image, "reserve_uncleared", size)
                self.assertEqual(set(kept[16448:16448 + size]), {fill})

    # The second form doesn't keep that promise: "The body isn't cleared."  It changes no
    # byte of the new body, wherever it is cut.
    def test_not_cleared(self):
        for image, size in dirty_pools(42, 100):
            given = pool.reserve_uncleared(bytearray(image), size)
            finished = after(image, "reserve_uncleared", size)
            body, state = body_and_state(finished, given.place)
            self.assertEqual(state, RESERVED)
            self.assertTrue(all(any(body[at:at + 8]) for at in range(0, len(body), 8)))
            for fuse in range(given.stores + 1):
                cut = after(image, "reserve_uncleared", size, fuse=fuse)
                self.assertEqual(cut[given.place:given.place + len(body)],
                                 image[given.place:given.place + len(body)])

    # The same tests, answers and places; the finished images differ in the new body
    # alone, and nothing else is cleared: no byte of the rest, its header's or its body's.
    def test_the_forms_differ_in_the_body_alone(self):
        for image, size in dirty_pools(43, 150):
            cleared, kept = bytearray(image), bytearray(image)
            one, other = pool.reserve(cleared, size), pool.reserve_uncleared(kept, size)
            body, _ = body_and_state(kept, other.place)
            self.assertEqual(one[:3], other[:3])
            self.assertEqual(one.stores, other.stores + len(body) // 8)
            self.assertEqual(one.flush_from, other.flush_from)
            self.assertEqual(one.flush_to, max(other.flush_to, other.place + len(body)))
            kept[other.place:other.place + len(body)] = bytes(len(body))
            self.assertEqual(cleared, kept)

    # "upward, after the sizes are right and before the state becomes RESERVED": a cut
    # before the first zero leaves what the second form leaves one store before its end,
    # and each further store clears one word more.
    def test_cuts_among_the_zeros(self):
        for image, size in dirty_pools(44, 60):
            place = pool.reserve(bytearray(image), size).place
            first = stores_of(image, "reserve_uncleared", (size,)) - 1
            expected = after(image, "reserve_uncleared", size, fuse=first)
            zeros = stores_of(image, "reserve", (size,)) - first - 1
            for made in range(zeros + 1):
                expected[place:place + 8 * made] = bytes(8 * made)
                self.assertEqual(after(image, "reserve", size, fuse=first + made), expected)

    # "After a cut and recovery it still reads as not asked."  The pool is sound wherever
    # it is cut.
    def test_reads_as_not_asked(self):
        for image, size in dirty_pools(45, 40):
            undone = pool.reading(recovered(image))
            for name in FORMS:
                for fuse in range(stores_of(image, name, (size,))):
                    cut = after(image, name, size, fuse=fuse)
                    self.assertEqual(pool.check(cut)[0].answer, 0)
                    self.assertEqual(pool.reading(recovered(cut)), undone)

    # Cut among its zeros, recovered and asked again, it is granted as at first.
    def test_asked_again(self):
        for image, size in dirty_pools(46, 30):
            for fuse in telling_fuses(image, "reserve", (size,))[:-1]:
                again = recovered(after(image, "reserve", size, fuse=fuse))
                expected = recovered(image)
                self.assertEqual(pool.reserve(again, size)[:4], pool.reserve(expected, size)[:4])
                self.assertEqual(pool.reading(again), pool.reading(expected))

    # The same tests: each refusal of the one is the other's, for every image and size.
    def test_refusals(self):
        images = (bytearray(0), bytearray(16512), filled(16512, 165), MIXED[:-8], *cases.FAULTY,
                  with_words(MIXED, {12312: 1}), pool_of(clump(128, ACTIVATING), clump(128, FREE)),
                  pool_of(clump(128, FREE), clump(128, FREE)), pool_of(clump(128, ACTIVE)), MIXED)
        answers = set()
        for image in images:
            for size in (0, 5, 64, 449, 2**32, 2**63, LARGEST - 63, LARGEST):
                one, other = (pool.ask(bytearray(image), name, (size,)) for name in FORMS)
                self.assertEqual(one[:3], other[:3])
                answers.add((one.answer, one.fault))
        self.assertEqual(answers, {(0, 0), (1, 0), (2, 1), (2, 2), (2, 3), (2, 4), (2, 5),
                                   (3, 0), (4, 0), (5, 0)})

    # "A technician read an old valve position out of a fresh record."  The script's
    # valve, 3, is at 16480 and its position, 77, at 16488.
    def test_old_valve_position(self):
        story = program.Program()
        seen = []
        for line in program.lines_of(SCRIPTS["old-valve-position"]):
            story.answer_line(line)
            if b"reserve" in line:
                seen.append((line, pool.word(story.image, 16480), pool.word(story.image, 16488)))
        self.assertEqual(seen, [(b"reserve 64", 0, 0), (b"reserve_uncleared 64", 3, 77),
                                (b"reserve 64", 0, 0)])

    # The script's old words are at 16448, 16472 and 16504: the cut leaves the last of
    # them, since 4 of 8 words were cleared; the reserve after the recovery leaves none.
    def test_cut_in_its_zeros(self):
        story = program.Program()
        seen = []
        for line in program.lines_of(SCRIPTS["reserve-cut-in-its-zeros"]):
            printed = story.answer_line(line)
            if line == b"reserve 64":
                words = [pool.word(story.image, at) for at in (16448, 16472, 16504)]
                seen.append((printed, words))
        self.assertEqual(seen, [(b"0 16448 15\n", [0, 0, 0]), (b"11 0 10\n", [0, 0, 3]),
                                (b"3 0 0\n", [0, 0, 3]), (b"0 16448 15\n", [0, 0, 0])])


# ---------------------------------------------------------------------------
# W6: "Grow a record where it stands."
# ---------------------------------------------------------------------------

# What a grow finds, in the stored words: enough, or room behind the clump, or why there is
# none.  (W11 names the reasons: "whether the next clump was not FREE, missing or too
# small".)
def room_behind(image, place, size):
    nbytes, end = pool.word(image, place - 64), place - 64 + pool.word(image, place - 64)
    need = 64 + 64 * -(-size // 64)
    if size <= nbytes - 64:
        return "enough"
    if end == len(image):
        return "missing"
    if pool.word(image, end + 8) != FREE:
        return "not FREE"
    return "too small" if nbytes + pool.word(image, end) < need else "room"


# Its stores, where there is room: with a rest of 128 or more three, else one.
def stores_of_growth(image, place, size):
    at, need = place - 64, 64 + 64 * -(-size // 64)
    both = pool.word(image, at) + pool.word(image, at + pool.word(image, at))
    if both - need < 128:
        return [(at, both)]
    return [(at + need, both - need), (at + need + 8, FREE), (at, need)]


# Sound, settled pools by chance, every second one with marks and gaps in its lists, in
# which every FREE body has old words; and one of their live clumps, with a size.
# (image, the offset of its body, size)
def growths(seed, wanted):
    dice = Dice(seed)
    while wanted:
        some_pool = (cases.sound_pool, cases.marked_pool)[wanted % 2]
        image = with_old_bodies(some_pool(dice, settled=True), OLD_WORDS[wanted % 3])
        place, size = cases.some_growth(dice, image)
        if pool.word(image, place - 56) != FREE:
            wanted -= 1
            yield image, place, size


# Those that find room.
def growths_with_room(seed, wanted):
    return (one for one in growths(seed, wanted) if room_behind(*one) == "room")


class GrowARecord(WordByWord):

    def assert_answer(self, answer, image, offset, size):
        asked = bytearray(image)
        self.assertEqual(pool.grow(asked, offset, size)[:4], (answer, 0, 0, 0))
        self.assertEqual(asked, image)

    # "If the present body is enough, done with no store": with any fuse, whatever stands
    # behind the clump.
    def test_enough(self):
        for state in (RESERVED, ACTIVE):
            for behind in ((), (clump(1024, FREE),), (clump(128, ACTIVE),)):
                for nbytes in (128, 192, 1088):
                    image = pool_of(clump(nbytes, state, (4096, 1)), *behind)
                    for size in (1, 63, 64, nbytes - 65, nbytes - 64):
                        for fuse in (0, 1, LARGEST):
                            asked = bytearray(image)
                            self.assertEqual(pool.grow(asked, 16448, size, fuse=fuse),
                                             (0, 16448, 0, 0, 0, 0))
                            self.assertEqual(asked, image)

    # A body has the size's bytes just if the clump has its need: a clump's nbytes is
    # divisible by 64.
    def test_enough_is_the_need(self):
        for nbytes in range(128, 1088, 64):
            image = pool_of(clump(nbytes, ACTIVE))
            for size in (64 * units + more for units in range(1, 18) for more in (-1, 0, 1)):
                enough = nbytes >= pool.need_of(size)
                self.assertEqual(pool.grow(image, 16448, size).answer, 0 if enough else 5)

    # 01's case A: size 1 needs 128, 64 needs 128, 65 needs 192, 1000 needs 1088.
    def test_a(self):
        for size, need in ((1, 128), (64, 128), (65, 192), (1000, 1088)):
            image = pool_of(clump(128, ACTIVE), clump(16256, FREE))
            self.assertEqual(pool.grow(image, 16448, size)[:4],
                             (0, 16448, 0, 3 if need > 128 else 0))
            self.assertEqual(tiles(image), [(need, ACTIVE), (16384 - need, FREE)])

    # 01's cases B to F, with a need of 1088 for 1000 bytes that 128 and the FREE clump
    # reach together, or don't: split, to a rest of 128 too; all taken; answer 5.
    def test_b_to_f(self):
        for following, expected in ((2048, [(1088, ACTIVE), (1088, FREE)]),
                                    (1088, [(1088, ACTIVE), (128, FREE)]),
                                    (1024, [(1152, ACTIVE)]), (960, [(1088, ACTIVE)])):
            image = pool_of(clump(256, ACTIVE), clump(128, ACTIVE), clump(following, FREE),
                            clump(256, ACTIVE))
            self.assertEqual(pool.grow(image, 16704, 1000)[:4],
                             (0, 16704, 0, 3 if len(expected) == 2 else 1))
            self.assertEqual(tiles(image), [(256, ACTIVE), *expected, (256, ACTIVE)])
        self.assert_answer(5, pool_of(clump(128, ACTIVE), clump(896, FREE)), 16448, 1000)

    # 01's case G: of 16384 together, size 16320 fits, 16321 doesn't; 18446744073709551615
    # gets 5, and so does every size whose need would wrap.
    def test_g(self):
        for state in (RESERVED, ACTIVE):
            image = pool_of(clump(128, state), clump(16256, FREE))
            self.assertEqual(tiles(after(image, "grow", 16448, 16320)), [(16384, state)])
            for size in (16321, 2**32, 2**32 + 1, 2**63, 2**64 - 16384, 2**64 - 129,
                         2**64 - 128, 2**64 - 127, 2**64 - 65, 2**64 - 64, 2**64 - 63,
                         18446744073709551615):
                self.assert_answer(5, image, 16448, size)

    # "the rest's header first, then one store of the grown nbytes": of a clump of 128 at
    # 16512 and 512 FREE bytes with old words.  193 to 256 bytes need 320, so that 320 are
    # left at 16832.  The rest's nbytes and its state FREE, as reserve stores them; no list.
    def test_order_with_a_rest(self):
        for state in (RESERVED, ACTIVE):
            for old in OLD_WORDS:
                image = growing_pool(state, 128, 512, old, (4096, 1), (4105, 2), (16576, 3))
                for size in (193, 200, 256):
                    self.assert_order(image, "grow", (16576, size),
                                      [(16832, 320), (16840, 0), (16512, 320)])

    # By one unit: the rest's header at 16704, just behind the old next one.
    def test_order_by_one_unit(self):
        image = growing_pool(ACTIVE, 128, 512, OLD_BYTES)
        self.assert_order(image, "grow", (16576, 65), [(16704, 448), (16712, 0), (16512, 192)])

    # "With a smaller rest the whole clump is used": one store, of both together.
    def test_order_without_a_rest(self):
        for state in (RESERVED, ACTIVE):
            for following, both in ((192, 320), (256, 384)):
                image = growing_pool(state, 128, following, OLD_RECORD, (4096, 1))
                for size in (193, 256):
                    self.assert_order(image, "grow", (16576, size), [(16512, both)])

    # "by reserve's rule": a reserve of the same size, in one FREE clump as large as the two
    # are together, splits off a rest just where grow does, and its first two stores make
    # the same header of it.
    def test_the_rest_is_reserve_s(self):
        for following in range(192, 704, 64):
            growing = growing_pool(ACTIVE, 128, following, OLD_RECORD)
            one_free = with_words(growing, {16512: 128 + following, 16520: FREE})
            for size in range(65, following, 64):
                stores = (stores_of(growing, "grow", (16576, size)),
                          stores_of(one_free, "reserve_uncleared", (size,)))
                self.assertIn(stores, ((3, 7), (1, 4)))
                if stores == (3, 7):
                    grown = after(growing, "grow", 16576, size, fuse=2)
                    split = after(one_free, "reserve_uncleared", size, fuse=2)
                    self.assertEqual(changed_words(grown, split), [16512, 16520])
                    self.assertNotEqual(grown, growing)

    # "Else answer 5, exactly then": the next clump isn't FREE, is missing, is too small by
    # 64.  FREE clumps elsewhere don't count.
    def test_no_room(self):
        for state in (RESERVED, ACTIVE):
            for behind in ((), (clump(512, RESERVED),), (clump(512, ACTIVE),),
                           (clump(128, FREE),), (clump(128, FREE), clump(512, ACTIVE)),
                           (clump(512, ACTIVE), clump(512, FREE))):
                image = pool_of(clump(512, FREE), clump(192, state), *behind)
                self.assert_answer(5, image, 16960, 257)
                self.assertEqual(pool.grow(bytearray(image), 16960, 128)[:2], (0, 16960))
            image = pool_of(clump(512, FREE), clump(192, state), clump(192, FREE))
            self.assertEqual(pool.grow(image, 16960, 257)[:4], (0, 16960, 0, 1))

    # "a live clump (RESERVED or ACTIVE)": 7 for a FREE one.  An ACTIVATING or FREEING one
    # makes the pool unfinished, which is 3.
    def test_states(self):
        for state, answer in ((FREE, 7), (ACTIVATING, 3), (FREEING, 3)):
            image = pool_of(clump(192, state), clump(128, ACTIVE), clump(256, FREE))
            for size in (1, 128, 129, LARGEST):
                self.assert_answer(answer, image, 16448, size)
        for state in (ACTIVATING, FREEING):
            image = pool_of(clump(128, ACTIVE), clump(512, state), clump(512, FREE))
            for size in (1, 65, LARGEST):
                self.assert_answer(3, image, 16448, size)

    # "Size 0 is 4; here 6 and 7 are tested before 5."
    def test_order_of_the_tests(self):
        settled = pool_of(clump(128, ACTIVE), clump(128, RESERVED), clump(128, FREE))
        touching = pool_of(clump(128, ACTIVE), clump(128, FREE), clump(128, FREE))
        bad = with_words(touching, {16520: 5})
        for offset in (0, 16384, 16447, 16448, 16456, 16512, 16576, 16704, 16768, LARGEST):
            for size in (0, 64, 1000, LARGEST):
                self.assert_answer(1, with_words(bad, {12312: 1}), offset, size)
                self.assertEqual(pool.grow(bytearray(bad), offset, size), (2, 16512, 2, 0, 0, 0))
                self.assert_answer(3, touching, offset, size)
            self.assert_answer(4, settled, offset, 0)
            for size in (1, 65, 1000, LARGEST):
                if offset not in (16448, 16576, 16704):
                    self.assert_answer(6, settled, offset, size)
        for size in (1, 65, 1000, LARGEST):
            self.assert_answer(7, settled, 16704, size)
        self.assert_answer(5, settled, 16448, 65)
        self.assert_answer(5, settled, 16576, 193)

    # "Else answer 5, exactly then", of many pools; and the stores of those that find room,
    # at every cut: no byte beside the words that are stored.
    def test_many(self):
        found = set()
        for image, place, size in growths(51, 600):
            room = room_behind(image, place, size)
            stores = stores_of_growth(image, place, size) if room == "room" else []
            found.add((pool.word(image, place - 56), room, len(stores)))
            for fuse in (*range(len(stores)), LARGEST):
                asked = bytearray(image)
                given = pool.grow(asked, place, size, fuse=fuse)
                answer = 0 if room in ("enough", "room") else 5
                if fuse < len(stores):
                    self.assertEqual(given[:4], (11, 0, 0, fuse))
                else:
                    self.assertEqual(given[:4], (answer, 0 if answer else place, 0, len(stores)))
                self.assertEqual(asked, with_words(image, dict(stores[:fuse])))
        self.assertEqual(found, {
            (state, room, count) for state in (RESERVED, ACTIVE) for room, count in
            (("enough", 0), ("missing", 0), ("not FREE", 0), ("too small", 0), ("room", 1),
             ("room", 3))})

    # "The old body bytes stay; the added ones aren't cleared": the added ones are those of
    # the next clump, with its header, as they were.  The list stays too, and the clumps
    # beside the two.
    def test_bytes_stay(self):
        rests = set()
        for image, place, size in growths_with_room(52, 300):
            old, state = body_and_state(image, place)
            grown = after(image, "grow", place, size)
            body, state_behind = body_and_state(grown, place)
            self.assertEqual(state_behind, state)
            self.assertGreaterEqual(len(body), size)
            self.assertLess(len(body), size + 128)
            self.assertEqual(body, image[place:place + len(body)])
            self.assertEqual(body[:len(old)], old)
            self.assertTrue(any(body[len(old):]))
            self.assertEqual(grown[place - 56:place], image[place - 56:place])
            before, behind = list(pool.walk(image)), list(pool.walk(grown))
            at = [one.offset for one in before].index(place - 64)
            rest = len(behind) - len(before) + 1
            self.assertEqual(behind[:at], before[:at])
            self.assertEqual(behind[at + 1 + rest:], before[at + 2:])
            self.assertTrue(rest == 0 or behind[at + 1].state == FREE)
            rests.add(rest)
        self.assertEqual(rests, {0, 1})

    # Behind every cut, and behind the recovery of every cut, the clumps tile the pool, and
    # no two FREE ones touch: until the last store the rest's header lies in a FREE body.
    def test_the_clumps_tile(self):
        for image, place, size in growths_with_room(53, 200):
            for fuse in range(stores_of(image, "grow", (place, size)) + 1):
                cut = after(image, "grow", place, size, fuse=fuse)
                for behind in (cut, recovered(cut)):
                    clumps = list(pool.walk(behind))
                    self.assertEqual(sum(one.nbytes for one in clumps), len(image) - 16384)
                    self.assertEqual(pool.check(behind)[0].answer, 0)
                    self.assertEqual(pool.reserve(behind, 0).answer, 4)

    # "Cut before the nbytes store, it reads as not asked", recovered or not; behind that
    # store it reads as done.  The two differ where the clump is ACTIVE; a RESERVED one is
    # dropped either way.
    def test_reads_as_not_asked(self):
        for image, place, size in growths_with_room(54, 250):
            whole = after(image, "grow", place, size)
            length = stores_of(image, "grow", (place, size))
            undone, done = pool.reading(recovered(image)), pool.reading(recovered(whole))
            self.assertEqual(undone != done, pool.word(image, place - 56) == ACTIVE)
            for fuse in range(length):
                cut = after(image, "grow", place, size, fuse=fuse)
                self.assertEqual(pool.reading(cut), pool.reading(image))
                self.assertEqual(pool.reading(recovered(cut)), undone)
                self.assertFalse(pool.reads_as_finished(image, "grow", (place, size), fuse))
            self.assertTrue(pool.reads_as_finished(image, "grow", (place, size), length))
            self.assertEqual(after(image, "grow", place, size, fuse=length), whole)
            if undone != done:
                bodies = dict(done[3])
                self.assertEqual(bodies[place - 64], body_and_state(whole, place)[0])

    # The turn is the last store: the third, or the first; none where nothing is stored.
    def test_turning_store(self):
        for following, size, turn in ((512, 65, 3), (128, 65, 1), (512, 64, 0)):
            image = growing_pool(ACTIVE, 128, following, OLD_RECORD)
            self.assertEqual(pool.turning_store(image, "grow", (16576, size)), turn)

    # Asked again for the same, it has enough; asked again behind a cut and a recovery, an
    # ACTIVE clump grows as at first.
    def test_asked_again(self):
        for image, place, size in growths_with_room(55, 200):
            whole = after(image, "grow", place, size)
            self.assertEqual(pool.grow(bytearray(whole), place, size), (0, place, 0, 0, 0, 0))
            if pool.word(image, place - 56) == ACTIVE:
                expected = pool.grow(recovered(image), place, size)
                for fuse in range(stores_of(image, "grow", (place, size))):
                    cut = recovered(after(image, "grow", place, size, fuse=fuse))
                    self.assertEqual(pool.grow(cut, place, size), expected)

    # Freed, a clump that has grown leaves what it leaves if it hasn't: it is joined to the
    # rest, as it is to the next clump, or to none.
    def test_freed_again(self):
        freed = 0
        for image, place, size in growths_with_room(56, 300):
            one, other = bytearray(image), after(image, "grow", place, size)
            if pool.free(one, place).answer == pool.free(other, place).answer == 0:
                self.assertEqual(tiles(other), tiles(one))
                freed += 1
        self.assertGreaterEqual(freed, 50)

    # A target in the next clump, in its header (16640) or its body (16704, 16824), is valid
    # once the grown body covers it; the rest's header and body (16832, 16896) aren't.
    def test_targets(self):
        image = growing_pool(RESERVED, 128, 448, OLD_RECORD)
        grown = after(image, "grow", 16576, 200)
        self.assertEqual(tiles(grown)[1:3], [(320, RESERVED), (256, FREE)])
        for target, before, behind in ((16632, 0, 0), (16640, 10, 0), (16704, 10, 0),
                                       (16824, 10, 0), (16832, 10, 10), (16896, 10, 10)):
            for name in ("onactive", "onfree"):
                for asked, answer in ((image, before), (grown, behind)):
                    given = pool.ask(bytearray(asked), name, (16576, target, 1))
                    self.assertEqual(given.answer, answer)

    # Grow judges no target and carries out nothing, whatever the list.
    def test_lists(self):
        for mixture in MIXTURES:
            entries = mixed_entries(mixture, (16576, 16640, 16896))
            for state in (RESERVED, ACTIVE):
                image = growing_pool(state, 128, 448, OLD_RECORD, *entries)
                self.assert_order(image, "grow", (16576, 200),
                                  [(16832, 256), (16840, 0), (16512, 320)])

    # The script's record has 7 and 9 in the first and the last word of its old body, and
    # one onfree entry, from its activation up to its freeing, which sets 4096.
    def test_grow_three_times(self):
        story = program.Program()
        sizes, done = [], False
        for line in program.lines_of(SCRIPTS["grow-three-times"]):
            printed = story.answer_line(line)
            done = done or line.startswith(b"activate")
            if line.startswith(b"free"):
                break
            if done:
                self.assertEqual([pool.word(story.image, at) for at in (16448, 16504, 4096)],
                                 [7, 9, 0])
                self.assertEqual(stored_words(story.image, 16384), [4097, 0, 0])
                self.assertEqual(pool.word(story.image, 16408), 5)
                sizes.append((line, printed, pool.word(story.image, 16384)))
        grown = [(printed, nbytes) for line, printed, nbytes in sizes if line[:4] == b"grow"]
        self.assertEqual(grown, [
            (b"0 16448 3\n", 192), (b"11 0 2\n", 192), (b"0 16448 3\n", 576),
            (b"11 0 0\n", 576), (b"11 0 1\n", 576), (b"0 16448 3\n", 2112)])
        self.assertEqual([nbytes for line, _, nbytes in sizes if line == b"recover"], [192, 576])
        self.assertEqual((printed, pool.word(story.image, 4096)), (b"0 16448 4\n", 5))

    # The script's freed record had 77 at 16584 and its header at 16512: both are in the
    # grown body, as they were.
    def test_grow_over_old_bytes(self):
        story = program.Program()
        for line in program.lines_of(SCRIPTS["grow-over-old-bytes"]):
            story.answer_line(line)
        body, state = body_and_state(story.image, 16448)
        self.assertEqual((len(body), state), (256, ACTIVE))
        self.assertEqual(int.from_bytes(body[16584 - 16448:][:8], "little"), 77)
        self.assertEqual(int.from_bytes(body[16512 - 16448:][:8], "little"), 16256)


# What 01 says of a pool in which no stored target has bit 0 set and which 01 calls
# sound, in 01's words and in the stored words: W4 changes none of it, but onfree.
class AsBefore(unittest.TestCase):

    # Of a clump's list: the offsets of the used entries' target words, their targets
    # and values; and the offset of the first empty entry's, if there is one.
    def list_of(self, image, offset):
        words = [(at, pool.word(image, at), pool.word(image, at + 8))
                 for at in range(offset + 16, offset + 64, 16)]
        return ([entry for entry in words if entry[1] != 0],
                [at for at, target, _ in words if target == 0][:1])

    # "10 | target not valid", of every used one.
    def any_bad(self, image, used):
        clumps = list(pool.walk(image))
        return any(not pool.is_valid(clumps, target) for _, target, _ in used)

    # "each value to its target, in list order"; "0 to each used target word of the
    # list, first to last"
    def assigned(self, used):
        return [(target, value) for _, target, value in used]

    def emptied(self, used):
        return [(at, 0) for at, _, _ in used]

    # The answer and the stores of a request on the clump with the header at the offset.
    def expected(self, image, name, offset, target, value):
        used, empty = self.list_of(image, offset)
        clumps = list(pool.walk(image))
        (one,) = [each for each in clumps if each.offset == offset]
        wanted = {"onactive": (RESERVED,), "activate": (RESERVED,),
                  "withdraw": (RESERVED, ACTIVE), "free": (RESERVED, ACTIVE)}
        joins = pool.join_stores(clumps, one)
        if one.state not in wanted[name]:
            return 7, []
        if name == "onactive":
            if not empty:
                return 8, []
            if not pool.is_valid(clumps, target):
                return 10, []
            return 0, [(empty[0] + 8, value), (empty[0], target)]
        if name == "withdraw":
            return (0, [(used[-1][0], 0)]) if used else (9, [])
        if name == "free" and one.state == RESERVED:
            return 0, [(offset + 8, FREE)] + joins
        if self.any_bad(image, used):
            return 10, []
        if name == "free":
            return 0, [(offset + 8, FREEING)] + self.assigned(used) + [(offset + 8, FREE)] + joins
        return 0, ([(offset + 8, ACTIVATING)] + self.assigned(used) + self.emptied(used)
                   + [(offset + 8, ACTIVE)])

    def assert_stores(self, image, name, numbers, answer, stores):
        for fuse in list(range(len(stores))) + [LARGEST]:
            expected = bytearray(image)
            for offset, value in stores[:fuse]:
                pool.put_word(expected, offset, value)
            asked = bytearray(image)
            given = pool.ask(asked, name, numbers, fuse)
            cut = len(stores) > fuse
            self.assertEqual((given.answer, given.stores),
                             (11, fuse) if cut else (answer, len(stores)))
            self.assertEqual(asked, expected)

    def test_requests_on_a_list(self):
        dice = Dice(31)
        answers = set()
        for _ in range(300):
            image = cases.sound_pool(dice, settled=True)
            one = dice.pick(list(pool.walk(image)))
            target = cases.some_target(dice, len(image))
            for name in ("onactive", "withdraw", "activate", "free"):
                numbers = (one.offset + 64, target, 5)[:pool.NUMBERS_TAKEN[name]]
                answer, stores = self.expected(image, name, one.offset, target, 5)
                self.assert_stores(image, name, numbers, answer, stores)
                answers.add((name, answer))
        self.assertEqual(answers, {
            ("onactive", 0), ("onactive", 7), ("onactive", 8), ("onactive", 10),
            ("withdraw", 0), ("withdraw", 7), ("withdraw", 9), ("activate", 0),
            ("activate", 7), ("activate", 10), ("free", 0), ("free", 7), ("free", 10)})

    # "finish the ACTIVATING clump (assign, empty the list, ACTIVE) or the FREEING one
    # (assign, FREE)": every used entry, with empty ones anywhere.
    def test_recover(self):
        for state in (ACTIVATING, FREEING):
            for mixture in MIXTURES:
                if MARKED in mixture:
                    continue
                image = mixture_pool(state, mixture, FREE, RESERVED)
                used, _ = self.list_of(image, 16512)
                if state == ACTIVATING:
                    stores = self.assigned(used) + self.emptied(used) + [
                        (16520, ACTIVE), (16648, FREE)]
                else:
                    stores = self.assigned(used) + [(16520, FREE), (16648, FREE), (16384, 384)]
                self.assert_stores(image, "recover", (), 0, stores)


# ---------------------------------------------------------------------------
# Rules over many random pools
# ---------------------------------------------------------------------------

class OverManyPools(unittest.TestCase):

    # Requests that a random sound pool doesn't refuse; every second pool has marks and
    # gaps in its lists.
    def accepted(self, seed, wanted):
        dice = Dice(seed)
        while wanted:
            name = dice.pick(("reserve", "reserve_uncleared", "onactive", "onfree",
                              "withdraw", "activate", "free", "recover", "grow"))
            some_pool = dice.pick((cases.sound_pool, cases.marked_pool))
            image = some_pool(dice, settled=name != "recover")
            bodies = [pool.body_of(one) for one in pool.walk(image)]
            numbers = (cases.some_growth(dice, image) if name == "grow"
                       else cases.some_numbers(dice, image, name, bodies))
            given = pool.ask(bytearray(image), name, numbers)
            if given.answer == 0 and given.stores:
                wanted -= 1
                yield image, name, numbers, given.stores

    # "After a cut and recovery, the reading equals that of recovering the image
    # before the request, if the cut fell in reserve, onactive, onfree, withdraw
    # or recover, or before the first store.  It equals that of recovering the
    # finished image if one or more stores of activate or free were made."  W4, of a
    # RESERVED clump with a marked entry: "Cut before the FREEING store, it reads as
    # not asked."  W6, of grow: "Cut before the nbytes store, it reads as not asked."
    def test_reading_after_a_cut(self):
        tried = set()
        for image, name, numbers, stores in self.accepted(27, 800):
            undone = pool.reading(recovered(image))
            finished = pool.reading(recovered(after(image, name, *numbers)))
            for fuse in range(stores):
                cut = after(image, name, *numbers, fuse=fuse)
                turned = pool.reads_as_finished(image, name, numbers, fuse)
                expected = finished if turned else undone
                self.assertEqual(pool.reading(recovered(cut)), expected)
                tried.add((name, fuse))
        # Each kind of request, each with its last cut; reserve's of a split for one unit
        # and for two.
        for last in (("reserve", 6 + 8), ("reserve", 6 + 16), ("reserve_uncleared", 6),
                     ("onactive", 1), ("onfree", 1), ("withdraw", 0),
                     ("activate", 7), ("free", 6), ("recover", 7), ("grow", 2)):
            self.assertIn(last, tried)

    # "A second recovery makes no store."
    def test_second_recovery(self):
        for image, name, numbers, stores in self.accepted(12, 200):
            for fuse in range(stores + 1):
                twice = recovered(after(image, name, *numbers, fuse=fuse))
                before = bytes(twice)
                self.assertEqual(pool.recover(twice, fuse=0), (0, 0, 0, 0, 0, 0))
                self.assertEqual(twice, before)

    # A cut recovery, recovered, leaves the same image as an uncut one.
    def test_recovery_of_a_recovery(self):
        for image, name, numbers, _ in self.accepted(13, 200):
            cut = after(image, name, *numbers, fuse=1)
            stores = pool.recover(bytearray(cut)).stores
            for fuse in range(stores):
                again = recovered(after(cut, "recover", fuse=fuse))
                self.assertEqual(pool.reading(again), pool.reading(recovered(cut)))

    # "Each store changes at most one aligned word", "makes the first so many",
    # "a fuse equal to its length is enough".
    def test_fuses(self):
        for image, name, numbers, stores in self.accepted(14, 300):
            whole = after(image, name, *numbers)
            for fuse in range(stores):
                cut = bytearray(image)
                self.assertEqual(pool.ask(cut, name, numbers, fuse)[:4], (11, 0, 0, fuse))
                self.assertLessEqual(
                    len(changed_words(cut, after(image, name, *numbers, fuse=fuse + 1))), 1)
            for fuse in (stores, stores + 1, LARGEST):
                self.assertEqual(after(image, name, *numbers, fuse=fuse), whole)

    # "Two images that differ only there get equal answers, places and counts."
    def test_bytes_without_influence(self):
        for image, name, numbers, _ in self.accepted(15, 300):
            other = dusty(image, 99)
            for asked in (name, "check", "recover"):
                given = numbers if asked == name else ()
                self.assertEqual(pool.ask(bytearray(image), asked, given),
                                 pool.ask(bytearray(other), asked, given))

    # Offsets 0 and 8192: "4,096 bytes each, never read or written".
    def test_red_pages_stay(self):
        for image, name, numbers, _ in self.accepted(16, 200):
            behind = after(image, name, *numbers)
            self.assertEqual(behind[:4096], image[:4096])
            self.assertEqual(behind[8192:12288], image[8192:12288])

    # Every finished request leaves a pool that is sound, and settled if it was.
    def test_sound_afterwards(self):
        for image, name, numbers, stores in self.accepted(17, 300):
            for fuse in range(stores + 1):
                behind = after(image, name, *numbers, fuse=fuse)
                self.assertEqual(pool.check(behind)[0].answer, 0)
            self.assertEqual(pool.reserve(behind, 0).answer, 4)


# ---------------------------------------------------------------------------
# The program
# ---------------------------------------------------------------------------

class TheProgram(unittest.TestCase):

    def assert_output(self, data, expected):
        self.assertEqual(program.run(data).split(b"\n"), expected.encode().split(b"\n"))

    # "Whole case, input `reserve 1000`, `activate 16448`, `walk`".  W5: "the whole
    # program case prints 135 where it printed 7"; "A second form of the request keeps
    # the old rule".
    def test_whole_case(self):
        for name, stores in ((b"reserve", 135), (b"reserve_uncleared", 7)):
            self.assert_output(
                name + b" 1000\nactivate 16448\nwalk\n",
                "0 16448 %d\n0 16448 2\n16384 1088 3\n17472 15296 0\n" % stores)

    def test_nothing(self):
        self.assert_output(b"", "")
        self.assert_output(b"\n", "?\n")

    def test_fuse_holds_for_one_request(self):
        self.assert_output(b"fuse 6\nreserve 1\nrecover\nreserve 1\n",
                           "11 0 6\n0 0 1\n0 16448 15\n")
        self.assert_output(b"fuse 6\nreserve_uncleared 1\nrecover\nreserve_uncleared 1\n",
                           "11 0 6\n0 0 1\n0 16448 7\n")

    def test_walk_and_bad_lines_use_up_no_fuse(self):
        self.assert_output(b"fuse 0\nwalk\nnonsense\nreserve\nreserve 1\n",
                           "16384 16384 0\n?\n?\n11 0 0\n")

    # W6: offset, then size.
    def test_grow(self):
        self.assert_output(b"reserve 64\ngrow 16448 1000\ngrow 16448 16321\nwalk\n",
                           "0 16448 15\n0 16448 3\n5 0 0\n16384 1088 1\n17472 15296 0\n")
        self.assert_output(b"reserve 64\nfuse 2\ngrow 16448 65\nwalk\n",
                           "0 16448 15\n11 0 2\n16384 128 1\n16512 16256 0\n")
        self.assert_output(b"reserve 64\nfuse 0\ngrow 16448 64\ngrow 64 16448\n",
                           "0 16448 15\n0 16448 0\n6 0 0\n")

    def test_refusal_uses_up_the_fuse(self):
        self.assert_output(b"fuse 0\nreserve 0\nreserve 1\n", "4 0 0\n0 16448 15\n")

    def test_later_fuse_holds(self):
        self.assert_output(b"fuse 9\nfuse 2\nreserve 1\n", "11 0 2\n")

    def test_bad_fuse_line_leaves_the_earlier(self):
        self.assert_output(b"fuse 2\nfuse 18446744073709551616\nfuse\nreserve 1\n",
                           "?\n?\n11 0 2\n")

    def test_spaces_tabs_returns(self):
        for line in (b"", b" ", b" reserve 1", b"reserve 1 ", b"reserve  1", b"reserve\t1",
                     b"reserve 1\r", b"reserve ", b"walk ", b"reserve\x001", b"reserve 1\xff"):
            self.assert_output(line + b"\nwalk\n", "?\n16384 16384 0\n")

    def test_names(self):
        for line in (b"create", b"check", b"Reserve 1", b"WALK", b"walk 1", b"recover 1",
                     b"reserve 1 1", b"onactive 1 1", b"free", b"reserve_uncleared",
                     b"reserve_uncleared 1 1", b"reserve_ 1", b"reserve uncleared 1",
                     b"grow", b"grow 1", b"grow 1 1 1", b"Grow 1 1", b"grows 1 1"):
            self.assert_output(line + b"\n", "?\n")

    def test_numbers(self):
        for name, stores in ((b"reserve ", 15), (b"reserve_uncleared ", 7)):
            for number in (b"+1", b"-1", b"0x1", b"1.0", b"18446744073709551616", b"1e1"):
                self.assert_output(name + number + b"\n", "?\n")
            self.assert_output(name + b"18446744073709551615\n", "5 0 0\n")
            self.assert_output(name + b"00000000000000000000000000001\n",
                               "0 16448 %d\n" % stores)
        for number in (b"+1", b"-1", b"0x1", b"1.0", b"18446744073709551616", b""):
            self.assert_output(b"grow 1 " + number + b"\ngrow " + number + b" 1\n", "?\n?\n")
        self.assert_output(b"grow 18446744073709551615 18446744073709551615\n", "6 0 0\n")

    def test_line_length(self):
        line = b"reserve " + b"0" * 191 + b"1"
        self.assertEqual(len(line), 200)
        self.assert_output(line + b"\n", "0 16448 15\n")
        self.assert_output(line, "0 16448 15\n")
        self.assert_output(b"reserve 0" + line[8:] + b"\n", "?\n")
        self.assert_output(b"x" * 100000 + b"\nwalk", "?\n16384 16384 0\n")

    def test_last_line_without_newline(self):
        self.assert_output(b"reserve 1\nwalk", "0 16448 15\n16384 128 1\n16512 16256 0\n")

    # The story's words in the end, followed by hand: root, count and follower
    # are all three set by the recovery, and the count again by the freeing.
    def test_kiln(self):
        story = program.Program()
        lines = program.lines_of(SCRIPTS["kiln"])
        recovery = lines.index(b"recover")
        printed = [story.answer_line(line) for line in lines[:recovery]]
        # Bodies of 320 bytes and, for 200, of 256: 7 + 40 stores and 7 + 32.
        self.assertEqual([printed[0], printed[5]], [b"0 16448 47\n", b"0 16832 39\n"])
        self.assertEqual([pool.word(story.image, at) for at in (4096, 4104, 16448)],
                         [16832, 2, 0])
        self.assertEqual(story.answer_line(lines[recovery]), b"0 0 7\n")
        self.assertEqual([pool.word(story.image, at) for at in (4096, 4104, 16448)],
                         [16832, 2, 16832])
        for line in lines[recovery + 1:]:
            story.answer_line(line)
        self.assertEqual([pool.word(story.image, at) for at in (4096, 4104)], [16832, 1])
        self.assertEqual(tiles(story.image), [(384, FREE), (320, ACTIVE), (15680, FREE)])


# ---------------------------------------------------------------------------
# What the generator writes
# ---------------------------------------------------------------------------

# The answers that document 01, with W4, W5 and W6, makes possible for each request.
POSSIBLE = {
    "create": {0, 1, 11}, "reserve": {0, 1, 2, 3, 4, 5, 11},
    "reserve_uncleared": {0, 1, 2, 3, 4, 5, 11},
    "onactive": {0, 1, 2, 3, 6, 7, 8, 10, 11}, "onfree": {0, 1, 2, 3, 6, 7, 8, 10, 11},
    "withdraw": {0, 1, 2, 3, 6, 7, 9, 11}, "activate": {0, 1, 2, 3, 6, 7, 10, 11},
    "free": {0, 1, 2, 3, 6, 7, 10, 11}, "check": {0, 1, 2}, "recover": {0, 1, 2, 11},
    "grow": {0, 1, 2, 3, 4, 5, 6, 7, 11}}


class TheGenerator(unittest.TestCase):

    @classmethod
    def setUpClass(cls):
        cls.cases = cases.all_cases()

    def test_number_of_cases(self):
        self.assertTrue(8000 <= len(self.cases) <= 9000, len(self.cases))
        self.assertGreaterEqual(len(SCRIPTS), 24)

    def test_every_answer_of_every_request(self):
        counts = generate.histogram(self.cases)
        self.assertEqual(set(POSSIBLE), set(cases.REQUEST_NAMES))
        for name, answers in POSSIBLE.items():
            self.assertEqual({answer for asked, answer in counts if asked == name}, answers)

    # Refusals leave the image alone; cuts make just as many stores as the fuse.
    def test_every_case_keeps_the_rules(self):
        for one in self.cases:
            image = bytearray(one.image)
            given = pool.ask(image, one.name, one.numbers, one.fuse)
            if 1 <= given.answer <= 10:
                self.assertEqual((image, given.stores), (one.image, 0))
            if given.answer == 11:
                self.assertEqual(given.stores, one.fuse)
            self.assertEqual(given.fault != 0, given.answer == 2)
            self.assertLessEqual(given.stores, one.fuse if one.name != "check" else 0)

    # W1: "the lowest offset stored to and the offset just past the highest", of the
    # stores made and as tight as that; every byte outside of it stays.
    def test_every_case_flushes_what_it_stored(self):
        for one in self.cases:
            image = bytearray(one.image)
            given, offsets = heard(image, one)
            start, end = given.flush_from, given.flush_to
            self.assertEqual(len(offsets), given.stores)
            self.assertEqual((start == 0, end == 0), (given.stores == 0,) * 2)
            if given.stores:
                self.assertEqual((start % 8, end % 8), (0, 0))
                self.assertGreaterEqual(end - start, 8)
                self.assertEqual((start, end), (min(offsets), max(offsets) + 8))
            same = image[:start] == one.image[:start] and image[end:] == one.image[end:]
            self.assertTrue(same, (one.name, one.numbers, one.fuse, given))

    # "s becomes (s * 257 + b + 1) modulo 4294967291", over every byte b.
    def byte_by_byte(self, data):
        total = 0
        for byte in data:
            total = (total * 257 + byte + 1) % 4294967291
        return total

    # The quick checksum is the byte by byte one.
    def test_checksum(self):
        dice = Dice(8)
        self.assertEqual(generate.checksum(b""), 0)
        self.assertEqual(generate.checksum(b"\0"), 1)
        self.assertEqual(generate.checksum(b"\0\x02"), 260)
        for length in (1, 2, 63, 64, 65, 1000):
            mixed = bytes(dice.below(3) * dice.below(2) * dice.below(128)
                          for _ in range(length))
            for data in (mixed, *(filled(length, fill) for fill in (0, 10, 165, 255))):
                self.assertEqual(generate.checksum(data), self.byte_by_byte(data))

    # A case line gives back its image.
    def test_case_lines(self):
        for one in self.cases[::40]:
            fields = list(map(int, generate.case_line(one).split()))
            length, fill, count = fields[:3]
            words = dict(zip(fields[3:3 + 2 * count:2], fields[4:3 + 2 * count:2]))
            self.assertEqual(with_words(filled(length, fill), words), one.image)
            self.assertEqual(cases.REQUEST_NAMES[fields[-5]], one.name)
            self.assertEqual(fields[-1], one.fuse)

    # The family of create's cuts is what it says: no word that create stores is 0
    # before, and every number of stores up to one too many is a cut.
    def test_create_cuts(self):
        family = list(cases.create_cuts())
        for one in family:
            words = [pool.word(one.image, at) for at in range(0, len(one.image), 8)]
            self.assertNotIn(0, words)
            self.assertEqual(generate.words_of(one.image, one.fill), [])
        self.assertEqual([one.fuse for one in family if len(one.image) == 16512],
                         list(range(1035)))

    # So two neighbouring stores of create that change places are seen: the cut
    # between them leaves another sum.
    def test_every_swap_in_create_is_seen(self):
        sums = {one.fuse: generate.checksum(after(one.image, "create", fuse=one.fuse))
                for one in cases.create_cuts() if len(one.image) == 16512}
        image = filled(16512, 165)
        stores = pool.create_stores(16512)
        for cut, (first, second) in enumerate(zip(stores, stores[1:]), 1):
            swapped = generate.checksum(with_words(image, dict([second])))
            self.assertNotEqual(swapped, sums[cut], (first, second))
            image = with_words(image, dict([first]))

    # The families of kept words are what they say: each of their requests has a cut,
    # or its end, where the changed words alone would give other bytes to flush.
    def test_kept_words(self):
        asked, told = set(), set()
        for one in (*cases.create_over_the_same_words(), *cases.kept_words()):
            image = bytearray(one.image)
            given = pool.ask(image, one.name, one.numbers, one.fuse)
            changed = changed_words(one.image, image)
            asked.add((one.image, one.name, one.numbers))
            if given.stores and (not changed or (given.flush_from, given.flush_to)
                                 != (changed[0], changed[-1] + 8)):
                told.add((one.image, one.name, one.numbers))
        self.assertEqual(len(asked), 12)
        self.assertEqual(told, asked)

    def test_last_word_assigned(self):
        ends = [pool.ask(bytearray(one.image), one.name, one.numbers, one.fuse).flush_to
                for one in cases.last_word_assigned()]
        self.assertEqual(ends, [0] + [16528] * 2 + [65536] * 6)

    # The families of mixtures are what they say: every mixture, freed and activated
    # with every fuse up to the length of its list.
    def test_mixtures(self):
        for family, name in ((cases.mixtures_freed, "free"),
                             (cases.mixtures_activated, "activate")):
            fuses = {}
            for one in family():
                if one.name == name:
                    fuses.setdefault(one.image, set()).add(one.fuse)
            for image, tried in fuses.items():
                length = stores_of(image, name, (16576,))
                self.assertEqual(tried - {LARGEST}, set(range(length + 1)))
            self.assertEqual(len({tuple(stored_words(image, 16512)) for image in fuses}), 27)

    # W5, of every case: a body that was reserved in the first form has no byte but 0, and
    # one that is being cleared isn't RESERVED; the second form changes no byte of it.
    def test_every_reserve_clears_the_body(self):
        found = set()
        for one in self.cases:
            if one.name not in FORMS:
                continue
            image, finished = bytearray(one.image), bytearray(one.image)
            given = pool.ask(image, one.name, one.numbers, one.fuse)
            if given.answer not in (0, 11):
                continue
            place = pool.ask(finished, one.name, one.numbers).place
            end = place + len(body_and_state(finished, place)[0])
            was, body = one.image[place:end], image[place:end]
            self.assertEqual(pool.word(image, place - 56),
                             RESERVED if given.answer == 0 else FREE)
            if one.name == "reserve_uncleared":
                self.assertEqual(body, was)
            elif given.answer == 0:
                self.assertFalse(any(body))
            found.add((one.name, given.answer, any(was), any(body)))
        for name, left in (("reserve", False), ("reserve_uncleared", True)):
            self.assertIn((name, 0, True, left), found)
        self.assertLessEqual({("reserve", 11, True, True), ("reserve", 11, True, False)}, found)

    # The families of dirty bodies are what they say: every fuse, and each zero changes
    # its word, so that two neighbouring stores that change places are seen.
    def test_dirty_bodies(self):
        fuses = {}
        for one in cases.dirty_bodies_reserved():
            fuses.setdefault((one.image, one.name, one.numbers), set()).add(one.fuse)
        bodies = set()
        for (image, name, numbers), tried in fuses.items():
            length = stores_of(image, name, numbers)
            self.assertEqual(tried, {*range(length + 1), LARGEST})
            if name == "reserve":
                zeros = length - stores_of(image, "reserve_uncleared", numbers)
                bodies.add((length - zeros, zeros))
                for fuse in range(length - 1 - zeros, length - 1):
                    changed = changed_words(after(image, name, *numbers, fuse=fuse),
                                            after(image, name, *numbers, fuse=fuse + 1))
                    self.assertEqual(len(changed), 1)
        # Split and not, of one unit and of two.
        self.assertEqual(bodies, {(7, 8), (7, 16), (4, 8), (4, 16)})

    # W6, of every case: what a grow finds is what it answers, where the pool is settled and
    # the clump live; it stores those words and no other, and of these the first so many.
    def test_every_grow(self):
        found = set()
        for one in self.cases:
            image = bytearray(one.image)
            if one.name != "grow":
                continue
            given = pool.ask(image, one.name, one.numbers, one.fuse)
            if given.answer not in (0, 5, 11):
                continue
            place, size = one.numbers
            room, state = room_behind(one.image, place, size), pool.word(one.image, place - 56)
            stores = stores_of_growth(one.image, place, size) if room == "room" else []
            answer = 11 if len(stores) > one.fuse else 0 if room in ("room", "enough") else 5
            self.assertEqual((given.answer, given.stores), (answer, len(stores[:one.fuse])))
            self.assertEqual(image, with_words(one.image, dict(stores[:one.fuse])))
            found.add((state, room, len(stores), given.answer == 11))
        self.assertEqual(found, {
            (state, *what) for state in (RESERVED, ACTIVE) for what in
            (("enough", 0, False), ("missing", 0, False), ("not FREE", 0, False),
             ("too small", 0, False), ("room", 1, False), ("room", 1, True),
             ("room", 3, False), ("room", 3, True))})

    # The choices of growing pools are what they say: every fuse, and each store changes
    # its word, so that two stores that change places are seen, and one that is left out; in
    # the rest's state there stands an old word, no 0.  From 64 too small up to a rest of
    # 192, RESERVED and ACTIVE, over each kind of old words.
    def test_growing_choices(self):
        fuses = {}
        for one in cases.growing_choices_cut():
            fuses.setdefault((one.image, one.numbers), set()).add(one.fuse)
        found, old = set(), set()
        for (image, numbers), tried in fuses.items():
            length = stores_of(image, "grow", numbers)
            self.assertEqual(tried, {*range(length + 1), LARGEST})
            for fuse in range(length):
                changed = changed_words(after(image, "grow", *numbers, fuse=fuse),
                                        after(image, "grow", *numbers, fuse=fuse + 1))
                self.assertEqual(len(changed), 1)
            end = 16512 + pool.word(image, 16512)
            need = 64 + 64 * -(-numbers[1] // 64)
            rest = end - 16512 + pool.word(image, end) - need
            found.add((pool.word(image, 16520), rest, length))
            if length == 3:
                old.add(pool.word(image, 16512 + need + 8))
        self.assertEqual(found, {
            (state, rest, length) for state in (RESERVED, ACTIVE) for rest, length in
            ((-64, 0), (0, 1), (64, 1), (128, 3), (192, 3))})
        self.assertEqual(old, {words[1] for words in OLD_WORDS})

    # Of many zeros the fuses that tell: all of the others', and among the zeros those
    # where they begin, the middle, and those where they end.
    def test_telling_fuses(self):
        image = fresh(32768)
        for name, size, expected in (
                ("reserve_uncleared", 1000, list(range(8))),
                ("reserve", 64, list(range(16))), ("reserve", 128, list(range(24))),
                ("reserve", 1000, [0, 1, 2, 3, 4, 5, 6, 7, 8, 70, 132, 133, 134, 135]),
                ("reserve", 16320, [0, 1, 2, 3, 4, 5, 1023, 2041, 2042, 2043, 2044]),
                ("reserve", 0, [0])):
            self.assertEqual(telling_fuses(image, name, (size,)), expected)
        self.assertEqual(telling_fuses(MIXED, "free", (MIXED_ACTIVE,)), list(range(6)))

    # The line of a cut of 01's case H, worked by hand but for the sum.
    def test_outcome_line(self):
        image = pool_of(clump(256, RESERVED, (4096, 7), (4096, 9)))
        total = generate.checksum(after(image, "activate", 16448, fuse=4))
        self.assertEqual(generate.outcome_line(77, case(image, "activate", 16448, fuse=4)),
                         "77 11 0 0 4 4096 16408 0 0 256 0 0 %d\n" % total)

    def test_the_files_are_up_to_date(self):
        self.assertEqual(generate.differences(generate.files_wanted()), [])


if __name__ == "__main__":
    unittest.main()
