"""What the generator builds images with: clumps, pools, dust and fixed dice."""

from collections import namedtuple
from itertools import product

import pool
from pool import FREE, RESERVED, ACTIVE, LARGEST

# `fill` is the byte that the case's line starts the image from: it lists the
# words that differ from it.  The image is the whole one, fill and words.
Case = namedtuple("Case", "image name numbers fuse fill")


def case(image, name, *numbers, fuse=LARGEST, fill=0):
    assert len(numbers) == pool.NUMBERS_TAKEN[name], (name, numbers)
    return Case(bytes(image), name, numbers, fuse, fill)


def filled(length, fill):
    """An image in which every byte is the fill."""
    return bytearray([fill]) * length


class Dice:
    """splitmix64: the same numbers from every Python, unlike `random`'s choices."""

    def __init__(self, seed):
        self.state = seed

    def word(self):
        self.state = (self.state + 0x9E3779B97F4A7C15) % 2**64
        mixed = self.state
        mixed = (mixed ^ (mixed >> 30)) * 0xBF58476D1CE4E5B9 % 2**64
        mixed = (mixed ^ (mixed >> 27)) * 0x94D049BB133111EB % 2**64
        return mixed ^ (mixed >> 31)

    def below(self, limit):
        return self.word() % limit

    def between(self, low, high):
        return low + self.below(high - low + 1)

    def pick(self, things):
        return things[self.below(len(things))]

    def one_in(self, chances):
        return self.below(chances) == 0


# A clump is its eight header words; its body follows in the image.
def clump(nbytes, state, *entries):
    words = [nbytes, state]
    for target, value in entries:
        words += [target, value]
    return words + [0] * (8 - len(words))


# What an entry of the list can be (W4 of document 02), and each mixture of three.
EMPTY, UNMARKED, MARKED = range(3)
MIXTURES = tuple(product((EMPTY, UNMARKED, MARKED), repeat=3))


# An entry for `clump`.  An empty one keeps a value, which means nothing.
def entry(kind, target, value):
    return {EMPTY: 0, UNMARKED: target, MARKED: pool.marked(target)}[kind], value


# The entries of a mixture, each with a target and a value of its own.
def mixed_entries(mixture, targets=(4096, 4104, 4112)):
    return [entry(kind, target, 71 + slot)
            for slot, (kind, target) in enumerate(zip(mixture, targets))]


# The clump with the mixture stands at 16512, its body at 16576.
def mixture_pool(state, mixture, before=ACTIVE, following=ACTIVE):
    return pool_of(clump(128, before), clump(128, state, *mixed_entries(mixture)),
                   clump(128, following))


def with_words(image, words):
    """A copy of the image with the words of {offset: value} put in."""
    changed = bytearray(image)
    for offset, value in words.items():
        pool.put_word(changed, offset, value)
    return changed


def pool_header(length):
    return {12288: int.from_bytes(pool.SIGNATURE[:8], "little"),
            12296: int.from_bytes(pool.SIGNATURE[8:], "little"),
            12304: length}


def pool_of(*clumps):
    """A pool whose length is just what the clumps fill."""
    length = 16384 + sum(words[0] for words in clumps)
    image = with_words(bytearray(length), pool_header(length))
    offset = 16384
    for words in clumps:
        for index, value in enumerate(words):
            pool.put_word(image, offset + 8 * index, value)
        offset += words[0]
    return image


def fresh(length):
    image = bytearray(length)
    pool.create(image)
    return image


def after(image, name, *numbers, fuse=LARGEST):
    """A copy of the image after the request."""
    changed = bytearray(image)
    pool.ask(changed, name, numbers, fuse)
    return changed


def stores_of(image, name, numbers):
    """How many stores the request makes when nothing cuts it."""
    return pool.ask(bytearray(image), name, numbers).stores


# Reserve's two forms (W5 of document 02): the first clears the body, the second
# keeps the old rule.
FORMS = ("reserve", "reserve_uncleared")


def zeros_of(image, name, numbers):
    """How many of a request's stores clear the body: reserve's, just before its last."""
    if name != "reserve":
        return 0
    return stores_of(image, "reserve", numbers) - stores_of(image, "reserve_uncleared", numbers)


# So many zeros are cut one by one.
FEW_ZEROS = 16


# The fuses that a list is cut with: each from 0 to the list's length.  Of more zeros
# than a few, cuts before the first two and behind them, in the middle, and before the
# last two and behind them: each of the others would leave one more word cleared.
def telling_fuses(image, name, numbers):
    length = stores_of(image, name, numbers)
    zeros = zeros_of(image, name, numbers)
    if zeros <= FEW_ZEROS:
        return list(range(length + 1))
    first, last = length - 1 - zeros, length - 1
    return [*range(first + 3), first + zeros // 2, *range(last - 2, length + 1)]


# What a FREE body may have kept: words that every byte is set of, and an old command's
# record, in each 64 bytes (next, previous, acknowledgement, serial, valve, position,
# and the two spare words).  No word of it is 0, so that each zero changes its word.
OLD_RECORD = (16832, 17088, 4242, 4241, 3, 77, 2**63, 255)
OLD_BYTES = (LARGEST,) * 8


def with_old_body(image, offset, nbytes, old):
    """A copy with old words, eight in turn, in so many bytes from the offset on."""
    return with_words(image, {offset + 8 * at: old[at % 8] for at in range(nbytes // 8)})


# A header of before, in each 64 bytes: where the header of a rest goes, and its state
# isn't stored, a clump that isn't FREE stands there, with a list.
OLD_HEADER = (832, ACTIVE, 4096, 1, 4105, 2, 16448, 3)

# These by turns.
OLD_WORDS = (OLD_RECORD, OLD_HEADER, OLD_BYTES)


# A FREE clump with old words in its list and its body, at 16512 (body 16576) between
# two ACTIVE ones, whose nearest words are old ones too.
def dirty_pool(nbytes, old):
    image = pool_of(clump(128, ACTIVE), clump(nbytes, FREE, (1, 2), (3, 4), (5, 6)),
                    clump(128, ACTIVE))
    image = with_old_body(image, 16576, nbytes - 64, old)
    return with_words(image, {16504: 91, 16512 + nbytes + 64: 92})


# The body of the clump that is to grow, in the pool below.
GROWING = 16576


# A live clump at 16512, every word of its body its own, with a FREE one behind it that
# has old words in its list and its body (W6 of document 02); before them an ACTIVE clump,
# and behind them another, whose nearest words are old ones too.
def growing_pool(state, nbytes, following, old, *entries, last=ACTIVE):
    image = pool_of(clump(128, ACTIVE), clump(nbytes, state, *entries),
                    clump(following, FREE, (1, 2), (3, 4), (5, 6)), clump(128, last))
    image = with_words(image, {at: at + 1 for at in range(GROWING, 16512 + nbytes, 8)})
    image = with_old_body(image, GROWING + nbytes, following - 64, old)
    return with_words(image, {16504: 91, GROWING + nbytes + following: 92})


def flip_bit(image, offset, bit):
    changed = bytearray(image)
    changed[offset] ^= 1 << bit
    return changed


# Words where no answer may look: pages 0 and 8192, the static area, and the
# first and last word of each body.
def dusty(image, seed):
    dice = Dice(seed)
    words = {0: dice.word(), 4088: dice.word(), 4096: dice.word(), 8184: dice.word(),
             8192: dice.word(), 12280: dice.word()}
    for one in pool.walk(image):
        words[pool.body_of(one)] = dice.word()
        words[pool.end_of(one) - 8] = dice.word()
    return with_words(image, words)


# Numbers that wrap, cut short or change sign in a careless build.
EDGE_NUMBERS = (
    2**64 - 1, 2**64 - 7, 2**64 - 8, 2**64 - 63, 2**64 - 64, 2**64 - 65,
    2**64 - 128, 2**64 - 16384, 2**63 - 1, 2**63, 2**63 + 64, 2**32 - 1, 2**32,
    2**32 + 64, 2**31, 1, 0)

# One pool in which every settled state has a neighbour of every other.
MIXED = pool_of(
    clump(256, ACTIVE, (4096, 11), (16448, 12)),                  # 16384
    clump(192, FREE, (3, 3), (5, 5), (7, 7)),                     # 16640
    clump(192, RESERVED, (4104, 21), (16896, 22), (17088, 23)),   # 16832
    clump(128, ACTIVE),                                           # 17024
    clump(128, FREE),                                             # 17152
    clump(128, RESERVED),                                         # 17280
    clump(512, FREE))                                             # 17408

# MIXED's clumps by state, as the offsets of their bodies.
MIXED_ACTIVE, MIXED_FREE, MIXED_RESERVED = 16448, 16704, 16896
MIXED_BARE_ACTIVE, MIXED_BARE_RESERVED = 17088, 17344

# Every request with numbers that MIXED does not refuse.
MIXED_REQUESTS = (
    ("reserve", (100,)), ("onactive", (MIXED_BARE_RESERVED, 4096, 1)),
    ("onfree", (MIXED_ACTIVE, 4096, 1)), ("withdraw", (MIXED_RESERVED,)),
    ("activate", (MIXED_RESERVED,)), ("free", (MIXED_ACTIVE,)),
    ("check", ()), ("recover", ()), ("reserve_uncleared", (100,)),
    ("grow", (MIXED_ACTIVE, 200)))


# A pool with one clump in the given state, FREE on both sides of it.
def unfinished(state, *entries):
    return pool_of(
        clump(128, ACTIVE),                     # 16384
        clump(128, FREE),                       # 16512
        clump(192, state, *entries),            # 16640
        clump(128, FREE),                       # 16832
        clump(192, RESERVED, (4096, 9)),        # 16960
        clump(128, ACTIVE, (4104, 8)))          # 17152
