"""The cases: families of images and requests, in a fixed order.

Each family is a function that yields cases; the comment above it says what it
tries.  A case that an earlier family has given already is left out.
"""

import pool
from pool import FREE, RESERVED, ACTIVATING, ACTIVE, FREEING, LARGEST
from build import (
    Dice, EDGE_NUMBERS, EMPTY, FORMS, GROWING, MARKED, MIXED, MIXED_ACTIVE,
    MIXED_BARE_ACTIVE, MIXED_BARE_RESERVED, MIXED_FREE, MIXED_REQUESTS, MIXED_RESERVED,
    MIXTURES, OLD_BYTES, OLD_HEADER, OLD_RECORD, OLD_WORDS, UNMARKED, after, case, clump,
    dirty_pool, dusty, entry, filled, flip_bit, fresh, growing_pool, mixed_entries,
    mixture_pool, pool_header, pool_of, stores_of, telling_fuses, unfinished,
    with_old_body, with_words, zeros_of)

# ---------------------------------------------------------------------------
# Not a pool
# ---------------------------------------------------------------------------

LENGTHS = (
    0, 1, 7, 8, 63, 64, 4096, 8192, 12288, 12296, 12304, 12312, 16383, 16384,
    16392, 16448, 16504, 16511, 16512, 16513, 16520, 16575, 16576, 16577, 16640,
    32704, 32767, 32768, 32769, 32776, 65471, 65472, 65473, 65528, 65535, 65536)


# An image of any length that has as much of a fresh pool as it can hold.
def shaped(length):
    image = bytearray(length)
    words = dict(pool_header(length))
    words[16384] = max(length - 16384, 0)
    return with_words(image, {at: word for at, word in words.items() if at + 8 <= length})


# Every length round the least one, the page ends and the largest image here:
# create, check of an empty and of a shaped image, and one other request each.
def lengths():
    others = (("reserve", (1,)), ("onactive", (16448, 4096, 1)),
              ("onfree", (16448, 4096, 1)), ("withdraw", (16448,)),
              ("activate", (16448,)), ("free", (16448,)), ("recover", ()))
    for index, length in enumerate(LENGTHS):
        yield case(bytearray(length), "create")
        yield case(bytearray(length), "check")
        yield case(shaped(length), "check")
        name, numbers = others[index % len(others)]
        yield case(shaped(length), name, *numbers)
        name, numbers = others[(index + 3) % len(others)]
        yield case(bytearray(length), name, *numbers)


# Each request on each kind of image that is no pool: length, both signature
# words, total size, first and last padding word, and no length at all.
def no_pool_for_every_request():
    for name, numbers in MIXED_REQUESTS:
        yield case(bytearray(0), name, *numbers)
        yield case(MIXED[:-8], name, *numbers)
        yield case(with_words(MIXED, {12288: 0}), name, *numbers)
        yield case(with_words(MIXED, {12296: 0}), name, *numbers)
        yield case(with_words(MIXED, {12304: len(MIXED) + 64}), name, *numbers)
        yield case(with_words(MIXED, {12312: 1}), name, *numbers)
        yield case(with_words(MIXED, {16376: 2**63}), name, *numbers)


# One bit wrong in each byte of the signature and of the total size.
def header_bits():
    base = fresh(16512)
    for at in range(12288, 12312):
        yield case(flip_bit(base, at, at % 8), "check")


# The total size off by a little, by a wrap, by its upper half.
def total_sizes():
    for length in (16512, 32768):
        base = fresh(length)
        for total in (0, 1, length - 64, length - 1, length + 1, length + 64,
                      length - 16384, length + 2**32, 2**63 + length, 2**64 - length,
                      LARGEST):
            yield case(with_words(base, {12304: total}), "check")


# Single bits in the zero padding, at both ends and in between; the words that
# stand just outside it may be anything.
def padding():
    base = fresh(16512)
    offsets = (12312, 12313, 12319, 12320, 12351, 12352, 12416, 12800, 13000, 14336,
               15872, 16000, 16319, 16320, 16367, 16368, 16376, 16382, 16383)
    for at in offsets:
        yield case(flip_bit(base, at, at % 8), "check")
    yield case(with_words(base, {12280: LARGEST}), "check")
    yield case(with_words(base, {8192: LARGEST}), "check")
    yield case(with_words(base, {0: LARGEST, 4088: LARGEST}), "recover")


# No pool comes before every fault: header damage together with each of them.
def no_pool_before_faults():
    for words in ({16384: 0}, {16392: 5}, {16400: 1}):
        for damage in ({12288: 1}, {12304: 0}, {12320: 64}):
            yield case(with_words(MIXED, {**words, **damage}), "check")


# ---------------------------------------------------------------------------
# Not sound
# ---------------------------------------------------------------------------

# Offsets of MIXED's headers.
MIXED_HEADERS = (16384, 16640, 16832, 17024, 17152, 17280, 17408)


# Fault 1 at the first, a middle and the last clump: sizes not divisible by 64,
# below 128, past the end, and ones that wrap round to the walk's own places.
def bad_sizes():
    for at in (16384, 17024, 17408):
        rest = len(MIXED) - at
        sizes = (0, 1, 8, 63, 64, 65, 120, 127, 128, 129, 136, 160, 191, 192, 193,
                 rest - 128, rest - 64, rest - 1, rest, rest + 1, rest + 64,
                 2**32, 2**32 + 128, 2**63, 2**63 + 128, 2**64 - at,
                 (16384 - at) % 2**64, 2**64 - 128, 2**64 - 64, 2**64 - 1)
        for nbytes in sizes:
            yield case(with_words(MIXED, {at: nbytes}), "check")


# A walk that leaves just 64 bytes: no size is right for that clump.
def last_64_bytes():
    for nbytes in (0, 64, 128, 2**64 - 64):
        image = with_words(fresh(16512 + 64), {16384: 128, 16512: nbytes})
        yield case(image, "check")
    for nbytes in (0, 64, 127, 128, 192, 256):
        yield case(with_words(fresh(16512), {16384: nbytes}), "check")


# Fault 2 at three clumps: states up to 4 and above, low byte right or wrong.
def bad_states():
    for at in (16384, 17024, 17408):
        for state in (0, 1, 2, 3, 4, 5, 6, 8, 255, 256, 259, 2**16, 2**32, 2**32 + 3,
                      2**63, 2**63 + 1, 2**64 - 4, LARGEST):
            yield case(with_words(MIXED, {at + 8: state}), "check")


# Every pattern of used and empty entries in every state: gaps are sound in each.
# Values of empty entries stand there too, since they mean nothing.
def entry_patterns():
    for state in range(5):
        for pattern in range(8):
            entries = [(4096 + 8 * slot if pattern >> slot & 1 else 0, 70 + slot)
                       for slot in range(3)]
            image = pool_of(clump(128, state, *entries), clump(128, ACTIVE))
            yield case(image, "check")
            if state in (ACTIVATING, FREEING):
                yield case(image, "recover")


# The pool for targets: a FREE body between live ones, and live ones at the end.
# Headers stand at 16384, 16576, 16704, 16896; the length is 17024.
def target_pool(first_state, first_list, third_state, third_list):
    return pool_of(clump(192, first_state, *first_list), clump(128, FREE),
                   clump(192, third_state, *third_list), clump(128, ACTIVE))


# On both sides of each border that a target can lie at.
TARGETS = (
    0, 1, 4, 7, 8, 64, 4088, 4095, 4096, 4097, 4100, 4104, 8176, 8183, 8184, 8185,
    8188, 8191, 8192, 8200, 12280, 12288, 12304, 16376, 16383, 16384, 16385, 16392,
    16440, 16444, 16447, 16448, 16449, 16452, 16456, 16568, 16572, 16575, 16576,
    16632, 16640, 16696, 16704, 16760, 16764, 16768, 16888, 16892, 16896, 16952,
    16960, 17008, 17015, 17016, 17017, 17020, 17023, 17024, 17032, 2**32 + 4096,
    2**63, 2**63 + 4096, 2**64 - 16, 2**64 - 8, 2**64 - 7, 2**64 - 1)

IN_RANGE = tuple(target for target in TARGETS if target % 8 == 0
                 and (4096 <= target <= 8184 or 16384 <= target <= 17016))


# A list with the target in one of its three entries, good targets before it.
def list_with(target, slot):
    return [(4096, 1), (8184, 2)][:slot] + [(target, 3)]


# Fault 3 by target, in RESERVED and ACTIVE clumps and in each entry.  An odd number
# is a mark and the target below it.
def listed_targets():
    for index, target in enumerate(TARGETS):
        entries = list_with(target, index % 3)
        yield case(target_pool(ACTIVE, [], RESERVED, entries), "check")
        entries = list_with(target, (index + 1) % 3)
        yield case(target_pool(ACTIVE, entries, RESERVED, []), "check")


# Fault 5 by target, in ACTIVATING and FREEING clumps, with empty entries about; of an
# odd one, which is marked, fault 3 in the ACTIVATING clump.
def pending_targets():
    for index, target in enumerate(TARGETS):
        entries = [(0, 9)] * (index % 3) + [(target, 3)]
        yield case(target_pool(ACTIVE, [], ACTIVATING, entries), "check")
        entries = [(0, 9)] * ((index + 1) % 3) + [(target, 3)]
        yield case(target_pool(FREEING, entries, RESERVED, []), "recover")


# Targets that only one clump's state makes valid: a pending target in a body of
# each state.
def pending_target_in_each_state():
    for pending in (ACTIVATING, FREEING):
        for state in (FREE, RESERVED, ACTIVE):
            image = pool_of(clump(128, pending, (16576, 5)), clump(128, state),
                            clump(128, ACTIVE))
            for name in ("check", "recover"):
                yield case(image, name)


# Fault 4: each pair of unfinished clumps, side by side, apart, and three of them.
def second_unfinished():
    for one in (ACTIVATING, FREEING):
        for other in (ACTIVATING, FREEING):
            near = pool_of(clump(128, one), clump(128, other), clump(128, FREE))
            apart = pool_of(clump(128, ACTIVE), clump(128, one), clump(128, FREE),
                            clump(192, RESERVED), clump(128, other))
            three = pool_of(clump(128, one), clump(128, ACTIVE), clump(128, other),
                            clump(128, FREE), clump(128, one))
            for image in (near, apart, three):
                yield case(image, "check")
                yield case(image, "recover")


# Words that make a fault in a clump at an offset.
def fault_words(fault, at):
    return {1: {at: 64}, 2: {at + 8: 5}, 3: {at + 8: ACTIVE, at + 16: 0, at + 32: 8192}}[fault]


# The order of judging within one clump: each set of faults 1 to 3 in the same
# clump, and each pair of them in a lower and a higher clump.
def fault_order_1_to_3():
    base = pool_of(clump(128, ACTIVE), clump(192, RESERVED), clump(128, FREE),
                   clump(128, ACTIVE))
    for at in (16384, 16512):
        for faults in ((1, 2), (1, 3), (2, 3), (1, 2, 3)):
            words = {}
            for fault in reversed(faults):
                words.update(fault_words(fault, at))
            yield case(with_words(base, words), "check")
    for low in (1, 2, 3):
        for high in (1, 2, 3):
            words = {**fault_words(low, 16512), **fault_words(high, 16832)}
            yield case(with_words(base, words), "check")
            yield case(with_words(base, words), "recover")


# The order of judging across clumps: faults 4 and 5 give way to any fault 1 to
# 3, wherever it stands, and 5 gives way to 4.
def fault_order_4_and_5():
    four = pool_of(clump(128, ACTIVATING), clump(128, FREEING), clump(128, ACTIVE))
    five = pool_of(clump(128, ACTIVATING, (16640 + 64, 1)), clump(128, ACTIVE),
                   clump(128, FREE))
    both = pool_of(clump(128, ACTIVATING, (8192, 1)), clump(128, FREEING, (1, 1)),
                   clump(128, ACTIVE))
    for image in (four, five, both):
        yield case(image, "check")
        yield case(image, "recover")
        for fault in (1, 2, 3):
            yield case(with_words(image, fault_words(fault, 16640)), "check")


# One image for each fault, in their order.
FAULTY = (
    with_words(MIXED, {17024: 136}), with_words(MIXED, {17032: 7}),
    with_words(MIXED, {17280 + 32: 8192}),
    with_words(MIXED, {16392: FREEING, 17032: ACTIVATING}),
    with_words(MIXED, {16840: ACTIVATING, 16848: 16704}))


# Each fault, refused by each request with its place; create asks nothing of it.
def fault_for_every_request():
    for image in FAULTY:
        for name, numbers in MIXED_REQUESTS:
            yield case(image, name, *numbers)
        yield case(image, "create")


# ---------------------------------------------------------------------------
# Sound, but not settled
# ---------------------------------------------------------------------------

# Numbers that would get the later answers, were the pool settled.
REFUSABLE = (
    ("reserve", (0,)), ("reserve", (LARGEST,)), ("reserve", (1,)),
    ("onactive", (1, 4096, 1)), ("onactive", (16448, 1, 1)),
    ("onfree", (16448, 4096, 1)), ("onfree", (2, 1, 1)), ("withdraw", (3,)),
    ("withdraw", (16448,)), ("activate", (0,)), ("activate", (16448,)),
    ("free", (LARGEST,)), ("free", (16448,)), ("check", ()), ("recover", ()),
    ("reserve_uncleared", (0,)), ("reserve_uncleared", (LARGEST,)),
    ("reserve_uncleared", (1,)), ("grow", (16448, 0)), ("grow", (16448, LARGEST)),
    ("grow", (5, 1)), ("grow", (16448, 1)))


# Answer 3 by each of its reasons and before each later answer; check and
# recover don't give it.
def not_settled():
    reasons = (
        pool_of(clump(128, ACTIVATING), clump(128, FREE)),
        pool_of(clump(128, ACTIVE), clump(128, FREEING, (4096, 4))),
        pool_of(clump(128, ACTIVE), clump(128, FREE), clump(192, FREE)),
        pool_of(clump(128, FREE), clump(128, FREE), clump(128, RESERVED)),
        pool_of(clump(128, FREE), clump(128, FREE), clump(128, FREEING)))
    for image in reasons:
        for name, numbers in REFUSABLE:
            yield case(image, name, *numbers)


# FREE clumps with one live clump between them don't touch.
def settled_after_all():
    image = pool_of(clump(128, FREE), clump(128, RESERVED), clump(128, FREE),
                    clump(128, ACTIVE), clump(128, FREE))
    for name, numbers in (("check", ()), ("recover", ()), ("reserve", (64,)),
                          ("withdraw", (16576,)), ("activate", (16576,)),
                          ("free", (16576,)), ("free", (16832,)),
                          ("reserve_uncleared", (64,)), ("grow", (16576, 128)),
                          ("grow", (16832, 192)), ("grow", (16832, 193))):
        yield case(image, name, *numbers)


# ---------------------------------------------------------------------------
# Reserve, in both forms (W5 of document 02): equal answers and places
# ---------------------------------------------------------------------------

# Sizes round each multiple of 64 until the clump is too small, and round some
# multiples in the usual pool up to its whole length.
def sizes_round_64():
    small = pool_of(clump(1088, FREE))
    for multiple in range(0, 1152, 64):
        for size in (multiple - 1, multiple, multiple + 1):
            if size >= 0:
                yield from both_forms(small, size)
    usual = fresh(32768)
    for count in (1, 2, 3, 16, 32, 63, 64, 127, 128, 252, 253, 254, 255, 256):
        for size in (64 * count - 1, 64 * count, 64 * count + 1):
            yield from both_forms(usual, size)


def both_forms(image, size):
    for name in FORMS:
        yield case(image, name, size)


# One FREE clump from too small to a rest of more than 128, for a few sizes.
# Its old list words and those of the rest's header show which words are stored.
def rests():
    for size in (1, 64, 65, 1000, 1024):
        need = pool.need_of(size)
        for nbytes in range(max(need - 128, 128), need + 320, 64):
            image = pool_of(clump(nbytes, FREE, (1, 2), (3, 4), (5, 6)))
            if nbytes >= need + 64:
                image = with_words(image, {16384 + need + at: 900 + at
                                           for at in range(0, 64, 8)})
            yield from both_forms(image, size)
            between = pool_of(clump(128, ACTIVE), clump(nbytes, FREE), clump(128, RESERVED))
            yield from both_forms(between, size)


# First fit: FREE clumps of several sizes between live ones; the first that is
# large enough is taken, never a better one further on.
def first_fits():
    live = clump(128, ACTIVE)
    image = pool_of(clump(128, FREE), live, clump(320, FREE), live, clump(192, FREE),
                    clump(128, RESERVED), clump(1088, FREE), live, clump(704, FREE))
    for size in (1, 63, 64, 65, 127, 128, 129, 192, 193, 255, 256, 257, 320, 639, 640,
                 641, 896, 897, 960, 961, 1023, 1024, 1025):
        yield from both_forms(image, size)


# Sizes whose rounding or header would wrap, and 0.
HUGE_SIZES = EDGE_NUMBERS + (2**64 - 127, 2**64 - 129, 2**64 - 16448, 2**63 - 64,
                             2**32 - 64, 2**32 + 1, 2**16)


# These, where there is room and where there is none; and size 0 with and without room.
def huge_sizes():
    roomy = fresh(32768)
    full = pool_of(clump(128, ACTIVE), clump(128, RESERVED))
    for size in HUGE_SIZES:
        yield from both_forms(roomy, size)
        yield from both_forms(full, size)


# ---------------------------------------------------------------------------
# Requests on an offset
# ---------------------------------------------------------------------------

# Offsets beside, below and inside each kind of clump, and ones that wrap: 6
# unless a body starts there, then 7 or more by the clump's state.
def offsets_asked():
    offsets = (0, 1, 63, 64, 4096, 8192, 12288, 16384, 16440, 16447, 16448, 16449,
               16456, 16512, 16640, 16704, 16768, 16832, 16896, 17088, 17216, 17344,
               17408, 17472, 17856, 17920, 17984, 2**32 + 16448, 2**63 + 16448,
               2**64 - 64, 2**64 - 1)
    for offset in offsets:
        yield case(MIXED, "onactive", offset, 4096, 6)
        yield case(MIXED, "onfree", offset, 4096, 6)
        yield case(MIXED, "withdraw", offset)
        yield case(MIXED, "activate", offset)
        yield case(MIXED, "free", offset)
        yield case(MIXED, "grow", offset, 200)


# Onactive and onfree with targets on both sides of each border.
def targets_added():
    image = target_pool(ACTIVE, [], RESERVED, [(4096, 1)])
    for index, target in enumerate(TARGETS):
        yield case(image, "onactive", 16768, target, EDGE_NUMBERS[index % 17])
        yield case(image, "onfree", 16448, target, EDGE_NUMBERS[(index + 5) % 17])


# The list with none to three entries, with a good and a bad target: 8 comes
# before 10, 7 before both, 6 before all.  Onfree takes RESERVED and ACTIVE.
def lists_filled():
    for count in range(4):
        entries = [(4096 + 8 * slot, slot) for slot in range(count)]
        for state in (FREE, RESERVED, ACTIVE):
            image = pool_of(clump(128, state, *entries), clump(128, ACTIVE))
            for target in (4096, 8192, 16448):
                yield case(image, "onactive", 16448, target, 77)
                yield case(image, "onfree", 16448, target, 77)
        yield case(image, "onactive", 16456, 8192, 77)
        yield case(image, "onfree", 16384, 8192, 77)


# Any value goes into the list, also where old words stand in the empty entry.
def values_added():
    image = pool_of(clump(128, RESERVED, (4096, 1), (0, 999), (0, 998)),
                    clump(128, ACTIVE, (0, LARGEST), (0, 2**63), (0, 5)))
    for value in EDGE_NUMBERS + (16448, 999):
        yield case(image, "onactive", 16448, 8184, value)
        yield case(image, "onfree", 16576, 16632, value)


# Withdraw with none to three entries in each state.
def withdrawals():
    for count in range(4):
        entries = [(16448 + 8 * slot, 50 + slot) for slot in range(count)]
        for state in (FREE, RESERVED, ACTIVE):
            image = pool_of(clump(128, state, *entries), clump(128, RESERVED))
            yield case(image, "withdraw", 16448)
    stale = pool_of(clump(128, RESERVED, (0, 1), (0, 2), (0, 3)))
    yield case(stale, "withdraw", 16448)
    yield case(pool_of(clump(128, ACTIVE, (16384, 1))), "withdraw", 16448)


# Activate and free with a listed target on each side of the borders within the
# range that a sound list allows: it must be valid now.
def targets_carried_out():
    for index, target in enumerate(IN_RANGE):
        entries = list_with(target, index % 3)
        yield case(target_pool(ACTIVE, [], RESERVED, entries), "activate", 16768)
        entries = list_with(target, (index + 1) % 3)
        yield case(target_pool(ACTIVE, entries, RESERVED, []), "free", 16448)


# A target that isn't valid in each entry, or in several; free of a RESERVED
# clump with no marked entry drops its list and asks nothing of it.
def targets_gone():
    for bad in range(8):
        entries = [(16640 + 8 * slot if bad >> slot & 1 else 4096 + 8 * slot, slot)
                   for slot in range(3)]
        yield case(target_pool(ACTIVE, [], RESERVED, entries), "activate", 16768)
        yield case(target_pool(ACTIVE, [], RESERVED, entries), "free", 16768)
        yield case(target_pool(ACTIVE, entries, RESERVED, []), "free", 16448)
    for entries in ([(16640, 1)], [(4096, 1), (16704, 2)]):
        yield case(target_pool(ACTIVE, [], RESERVED, entries), "activate", 16768)
        yield case(target_pool(ACTIVE, entries, RESERVED, []), "free", 16448)


# Document 01's case J up to its refusal.
def case_j():
    image = pool_of(clump(128, RESERVED, (16576, 5)), clump(128, ACTIVE),
                    clump(128, FREE))
    yield case(image, "free", 16576)
    freed = after(image, "free", 16576)
    yield case(freed, "activate", 16448)
    yield case(freed, "free", 16448)
    yield case(freed, "withdraw", 16448)
    yield case(freed, "recover")


# ---------------------------------------------------------------------------
# Every cut of every kind of request
# ---------------------------------------------------------------------------

# Each choice below yields (image, name, numbers).

# Reserve with a split, over old list words and old words where the rest's header
# goes; with rests of 128, 64 and 0; in the second FREE clump.
def reserve_choices():
    old_list = ((1, 2), (3, 4), (5, 6))
    between = pool_of(clump(128, ACTIVE), clump(640, FREE, *old_list), clump(128, RESERVED))
    between = with_words(between, {16512 + 256 + at: 700 + at for at in range(0, 64, 8)})
    yield dusty(fresh(16896), 1), "reserve", (100,)
    yield between, "reserve", (192,)
    yield pool_of(clump(1216, FREE, *old_list)), "reserve", (1000,)
    yield pool_of(clump(1152, FREE, *old_list)), "reserve", (1000,)
    yield pool_of(clump(1088, FREE, *old_list)), "reserve", (1000,)
    yield pool_of(clump(128, FREE), clump(128, ACTIVE), clump(448, FREE, *old_list)), \
        "reserve", (65,)


# The same in the form that doesn't clear the body.
def reserve_uncleared_choices():
    for image, _, numbers in reserve_choices():
        yield image, "reserve_uncleared", numbers


# Onactive and onfree into the first, second and third entry, each over the value
# that the empty entry has kept.
def list_choices():
    for name, state in (("onactive", RESERVED), ("onfree", ACTIVE)):
        for count in range(3):
            entries = [(4096, 1), (4104, 2)][:count] + [(0, 444)]
            image = pool_of(clump(128, state, *entries), clump(128, FREE))
            yield image, name, (16448, 16504, 1000 + count)


# Withdraw of the first, second and third entry, RESERVED and ACTIVE.
def withdraw_choices():
    for state in (RESERVED, ACTIVE):
        for count in (1, 2, 3):
            entries = [(4096, 1), (4104, 2), (4112, 3)][:count]
            yield pool_of(clump(128, state, *entries)), "withdraw", (16448,)


# The lists that an activation is cut with: none to three entries, own body,
# other bodies, static area, and the same target more than once.
ACTIVATION_LISTS = (
    [], [(4096, 7)], [(8184, 7)], [(16640, 7)], [(16448, 7)], [(16952, 7)],
    [(4096, 7), (4096, 9)], [(16640, 7), (16696, 9)], [(16448, 7), (8184, 9)],
    [(4096, 7), (4096, 8), (4096, 9)], [(4096, 7), (16640, 8), (4096, 9)],
    [(16640, 7), (4104, 8), (16448, 9)], [(16952, 16640), (16896, 16640), (4096, 16640)])


# The activated clump stands at 16576, body 16640 to 16703.
def activate_choices():
    for entries in ACTIVATION_LISTS:
        image = pool_of(clump(192, ACTIVE), clump(128, RESERVED, *entries),
                        clump(128, FREE), clump(128, RESERVED))
        yield dusty(image, 2), "activate", (16640,)


# A clump to be freed between neighbours; FREE ones are joined.
def neighbours(state, entries, before, following):
    return pool_of(clump(128, before), clump(192, state, *entries),
                   clump(256, following), clump(128, ACTIVE))


FREE_LISTS = ([], [(4096, 7)], [(16576, 7), (4096, 8)], [(4096, 7), (17024, 8), (4096, 9)])


# Free of ACTIVE and of RESERVED with each pair of neighbours and none to three
# entries; also of the first, the last and the only clump.
def free_choices():
    for before in (FREE, ACTIVE):
        for following in (FREE, RESERVED):
            for entries in FREE_LISTS:
                yield neighbours(ACTIVE, entries, before, following), "free", (16576,)
                yield neighbours(RESERVED, entries, before, following), "free", (16576,)
    pair = (clump(128, ACTIVE, (16448, 3)), clump(192, FREE))
    yield dusty(pool_of(*pair), 3), "free", (16448,)
    yield dusty(pool_of(clump(192, FREE), clump(128, ACTIVE, (16640, 3))), 4), "free", (16640,)
    yield pool_of(clump(128, RESERVED)), "free", (16448,)
    yield pool_of(clump(128, ACTIVE, (16448, 1), (16504, 2), (8184, 3))), "free", (16448,)


# Recover of an activation and a freeing with each pattern of used entries.
def recover_unfinished_choices():
    targets = (4096, 16704, 17216)
    for state in (ACTIVATING, FREEING):
        for pattern in range(8):
            entries = [(targets[slot] if pattern >> slot & 1 else 0, 60 + slot)
                       for slot in range(3)]
            yield dusty(unfinished(state, *entries), 5), "recover", ()


# Recover of RESERVED clumps and FREE runs in all arrangements: none, one, runs
# of two and more, runs that only recovery makes, duplicates, whole pools.
def recover_other_choices():
    arrangements = (
        (FREE,), (ACTIVE,), (RESERVED,), (FREE, FREE), (RESERVED, RESERVED),
        (ACTIVE, FREE, ACTIVE), (FREE, RESERVED, FREE), (RESERVED, FREE, ACTIVE),
        (FREE, FREE, ACTIVE, FREE, FREE, FREE), (RESERVED,) * 6,
        (ACTIVE, RESERVED, ACTIVE, RESERVED, ACTIVE, FREE),
        (FREE, FREEING, FREE), (RESERVED, FREEING, RESERVED), (FREEING, ACTIVE, RESERVED),
        (ACTIVATING,), (FREEING,), (RESERVED, ACTIVATING, RESERVED, FREE),
        (FREE, FREE, ACTIVATING, FREE, FREE))
    for states in arrangements:
        image = pool_of(*(clump(128 + 64 * (index % 3), state)
                          for index, state in enumerate(states)))
        yield image, "recover", ()
    twice = pool_of(clump(128, FREEING, (4096, 1), (0, 2), (4096, 3)), clump(128, FREE))
    yield twice, "recover", ()
    to_reserved = pool_of(clump(128, RESERVED), clump(128, ACTIVATING, (16448, 5), (16504, 6)))
    yield to_reserved, "recover", ()


# Grow with rests of 128 and of more, 64 and 0, over old words where the rest's header
# goes: of ACTIVE and RESERVED clumps with full lists, before an ACTIVE or a RESERVED one.
def grow_choices():
    entries = [(4096, 7), (4105, 8), (16576, 9)]
    for state, following, last in ((ACTIVE, 512, RESERVED), (RESERVED, 320, ACTIVE),
                                   (ACTIVE, 256, ACTIVE), (RESERVED, 192, RESERVED)):
        image = growing_pool(state, 128, following, OLD_HEADER, *entries, last=last)
        yield image, "grow", (GROWING, 200)


CHOICES = (reserve_choices, list_choices, withdraw_choices, activate_choices,
           free_choices, recover_unfinished_choices, recover_other_choices,
           reserve_uncleared_choices, grow_choices)


def all_choices():
    return [choice for family in CHOICES for choice in family()]


# Each fuse from 0 to the list's length (of many zeros those that tell), one more, and
# the largest.
def every_cut():
    for image, name, numbers in all_choices():
        length = stores_of(image, name, numbers)
        for fuse in (*telling_fuses(image, name, numbers), length + 1, LARGEST):
            yield case(image, name, *numbers, fuse=fuse)


# Fuses that a narrower count would take for small ones.
def wide_fuses():
    chosen = [next(iter(family())) for family in CHOICES]
    for image, name, numbers in chosen:
        for fuse in (2**16, 2**31, 2**32, 2**32 + 1, 2**63, 2**64 - 2):
            yield case(image, name, *numbers, fuse=fuse)


# A fuse means nothing to a refusal, nor to check.
def fuses_of_refusals():
    for fuse in (0, 1, LARGEST):
        yield case(MIXED, "check", fuse=fuse)
        yield case(bytearray(64), "create", fuse=fuse)
        yield case(bytearray(16512), "recover", fuse=fuse)
        yield case(FAULTY[0], "recover", fuse=fuse)
        yield case(MIXED, "reserve", 0, fuse=fuse)
        yield case(MIXED, "reserve", 10000, fuse=fuse)
        yield case(MIXED, "reserve_uncleared", 0, fuse=fuse)
        yield case(MIXED, "reserve_uncleared", 10000, fuse=fuse)
        yield case(MIXED, "onactive", 5, 4096, 1, fuse=fuse)
        yield case(MIXED, "onfree", MIXED_FREE, 4096, 1, fuse=fuse)
        yield case(MIXED, "onactive", MIXED_RESERVED, 4096, 1, fuse=fuse)
        yield case(MIXED, "withdraw", MIXED_BARE_ACTIVE, fuse=fuse)
        yield case(MIXED, "onactive", MIXED_BARE_RESERVED, 8192, 1, fuse=fuse)
        yield case(MIXED, "activate", MIXED_ACTIVE, fuse=fuse)
        yield case(MIXED, "grow", MIXED_ACTIVE, 0, fuse=fuse)
        yield case(MIXED, "grow", MIXED_ACTIVE, 385, fuse=fuse)
        yield case(MIXED, "grow", 5, 1, fuse=fuse)
        yield case(MIXED, "grow", MIXED_FREE, 1, fuse=fuse)


# Create over an image in which every byte is 165, with each fuse from 0 to its
# 1,033 stores and one more.  Over zeros a store of 0 shows nothing; here each
# store changes its word, so that the image between two of them tells which came
# first.  No cut can be spared: two stores that none parts could change places
# unseen.  Over the largest image here and the largest fill, one cut within each
# run of zeros, and none: the order doesn't go by the length.
def create_cuts():
    for fuse in range(1035):
        yield case(filled(16512, 165), "create", fuse=fuse, fill=165)
    for fuse in (257, 770, 1029, LARGEST):
        yield case(filled(65536, 255), "create", fuse=fuse, fill=255)


# Create over an older pool: a check of what is left finds that one as long as
# nothing was stored, then none, and the new one after the last store.  The wide
# fuses are those that a narrower count would take for 0.
def create_over_a_pool():
    for fuse in (0, 1, 1032, 1033, 2**32, 2**63):
        yield case(dusty(MIXED, 6), "create", fuse=fuse)


# What the requests make of a creation that was cut where its parts meet, within
# them and beside: no pool, unless nothing was stored.
def after_create_cuts():
    fuses = (0, 1, 2, 3, 256, 511, 512, 513, 514, 515, 516, 517, 1022, 1023, 1024, 1025,
             1026, 1030, 1031, 1032)
    asked = (("check", ()), ("recover", ()), ("reserve", (1,)), ("free", (MIXED_ACTIVE,)))
    for index, fuse in enumerate(fuses):
        name, numbers = asked[index % 4]
        yield case(after(fresh(16576), "create", fuse=fuse), name, *numbers)
        yield case(after(dusty(MIXED, 6), "create", fuse=fuse), name, *numbers)
    yield case(after(MIXED, "create", fuse=600), "create")


# ---------------------------------------------------------------------------
# Recoveries of cut images
# ---------------------------------------------------------------------------

# What each cut of each choice leaves, once a store was made.
def cut_images():
    for image, name, numbers in all_choices():
        for fuse in telling_fuses(image, name, numbers)[1:-1]:
            yield after(image, name, *numbers, fuse=fuse)


# Every cut image, recovered in one go.
def recoveries():
    for image in cut_images():
        yield case(image, "recover")


# The recovery cut as well, at a place that moves on from image to image, and the
# recovery of what that leaves.
def recoveries_cut_again():
    for index, image in enumerate(cut_images()):
        length = stores_of(image, "recover", ())
        if length >= 2 and index % 2 == 0:
            fuse = 1 + index // 2 % (length - 1)
            yield case(image, "recover", fuse=fuse)
            yield case(after(image, "recover", fuse=fuse), "recover")


# One pool recovered again and again, each time with one store more than before,
# until a recovery is whole and the next one has nothing to do.  With the same
# fuse it might never end: recovery assigns from the first entry each time.
def longer_and_longer_recoveries():
    image = dusty(unfinished(ACTIVATING, (4096, 1), (16704, 2), (17216, 3)), 7)
    fuse = 0
    while stores_of(image, "recover", ()):
        yield case(image, "recover", fuse=fuse)
        image = after(image, "recover", fuse=fuse)
        fuse += 1
    yield case(image, "recover", fuse=0)


# Cut images asked for something else than recovery.
def cut_images_asked():
    for index, image in enumerate(cut_images()):
        name, numbers = REFUSABLE[index % 14]
        if index % 4 == 0:
            yield case(image, name, *numbers)


# ---------------------------------------------------------------------------
# Bytes that no answer may depend on
# ---------------------------------------------------------------------------

# Pairs of images that differ only in bodies, the static area and pages 0 and
# 8192: equal answers, places and counts, and the dust stays where it is.
def dust():
    for seed in range(100, 103):
        for name, numbers in MIXED_REQUESTS:
            yield case(dusty(MIXED, seed), name, *numbers)
        yield case(dusty(MIXED, seed), "create")
    # A body that looks like clump headers is still a body.
    lure = with_words(MIXED, {16448: 128, 16456: FREE, 16512: 64, 16520: 9})
    for name, numbers in MIXED_REQUESTS:
        yield case(lure, name, *numbers)
    # The list of a FREE clump means nothing, whatever it holds.
    for words in ((LARGEST, 0, 0), (0, 0, 4096), (1, 0, LARGEST), (16384, 8, 3)):
        image = pool_of(clump(128, ACTIVE), clump(256, FREE, *((word, word) for word in words)))
        for name, numbers in (("check", ()), ("reserve", (1,)), ("free", (16448,)),
                              ("recover", ()), ("reserve_uncleared", (1,))):
            yield case(image, name, *numbers)


# ---------------------------------------------------------------------------
# Chance
# ---------------------------------------------------------------------------

# Document 01's requests in its order, then what document 02 adds: a request's number
# is its place here.
FIRST_NAMES = ("create", "reserve", "onactive", "onfree", "withdraw", "activate",
               "free", "check", "recover")
REQUEST_NAMES = FIRST_NAMES + ("reserve_uncleared", "grow")


def some_target(dice, length):
    if dice.one_in(12):
        return dice.pick(TARGETS + EDGE_NUMBERS)
    if dice.one_in(3):
        return dice.between(512, 1023) * 8
    return dice.between(2048, length // 8 - 1) * 8


# Numbers for a request that often fit the pool: sizes small, offsets at bodies.
def some_numbers(dice, image, name, bodies):
    size = dice.pick((1, 64, 65, 100, 128, 200, 256, 500, 1000, dice.between(1, 2000)))
    if name in FORMS:
        return (size,)
    offset = dice.pick(bodies)
    if name == "grow":
        return offset, size
    numbers = (offset, some_target(dice, max(len(image), 16512)), dice.word())
    return numbers[:pool.NUMBERS_TAKEN[name]]


def some_fuse(dice):
    return LARGEST if dice.one_in(2) else dice.between(0, 8)


# Images of nothing but random words; few are long enough, none is a pool.
def garbage():
    dice = Dice(2001)
    for _ in range(40):
        length = dice.pick(LENGTHS + (32768, 65536, 16512))
        words = {dice.below(length // 8) * 8: dice.word()
                 for _ in range(dice.between(0, 24)) if length >= 8}
        image = with_words(bytearray(length), words)
        name = dice.pick(FIRST_NAMES)
        yield case(image, name, *some_numbers(dice, image, name, (16448, 4096)),
                   fuse=some_fuse(dice))


# A right header, and random words where the clumps should stand.
def garbage_clumps():
    dice = Dice(2002)
    for _ in range(60):
        length = 16384 + 64 * dice.between(2, 12)
        words = {dice.between(2048, length // 8 - 1) * 8: dice.word()
                 for _ in range(dice.between(1, 30))}
        words[16384] = dice.pick((128, 192, length - 16384, dice.word()))
        image = with_words(bytearray(length), {**words, **pool_header(length)})
        name = dice.pick(FIRST_NAMES)
        yield case(image, name, *some_numbers(dice, image, name, (16448, 16512, 16576)),
                   fuse=some_fuse(dice))


# Sizes and entries that are often right but need not be.
def nearly_right_clump(dice, length):
    nbytes = dice.between(2, 5) * 64 + (dice.below(64) if dice.one_in(30) else 0)
    state = dice.below(6) if dice.one_in(8) else dice.pick((FREE, RESERVED, ACTIVE))
    count = dice.pick((0, 0, 1, 2, 3))
    entries = [(some_target(dice, length), dice.word()) for _ in range(count)]
    if dice.one_in(20):
        entries = [(0, 1)] + entries[:2]
    return nbytes, state, entries


# Clumps with small sizes, any state and plausible lists: sound or not by chance.
def nearly_right_pools():
    dice = Dice(2003)
    for _ in range(120):
        length = 16384 + 64 * dice.between(4, 30)
        image = with_words(bytearray(length), pool_header(length))
        offset, bodies = 16384, []
        while length - offset >= 128:
            nbytes, state, entries = nearly_right_clump(dice, length)
            if length - offset - nbytes < 128:
                nbytes = length - offset
            image = with_words(image, {offset + 8 * at: word for at, word in
                                       enumerate(clump(nbytes, state, *entries))})
            bodies.append(offset + 64)
            offset += max(nbytes // 64, 1) * 64
        name = dice.pick(("check", "recover") + FIRST_NAMES[1:])
        yield case(image, name, *some_numbers(dice, image, name, bodies),
                   fuse=some_fuse(dice))


# A sound pool by chance.  At most one clump is unfinished, and its targets are
# valid; the lists of RESERVED and ACTIVE clumps may have gone stale.
def sound_pool(dice, settled):
    states = [dice.pick((FREE, RESERVED, ACTIVE, ACTIVE)) for _ in range(dice.between(2, 9))]
    if settled:
        states = [state for at, state in enumerate(states)
                  if state != FREE or at == 0 or states[at - 1] != FREE]
    elif dice.one_in(2):
        states[dice.below(len(states))] = dice.pick((ACTIVATING, FREEING))
    image = pool_of(*(clump(64 * dice.between(2, 6), state) for state in states))
    clumps = list(pool.walk(image))
    for one in clumps:
        for at in range(dice.below(4) if one.state != FREE else 0):
            target = good_target(dice, image, clumps, one)
            pool.put_word(image, one.offset + 16 + 16 * at, target)
            pool.put_word(image, one.offset + 24 + 16 * at, dice.word())
    return dusty(image, dice.word())


def good_target(dice, image, clumps, one):
    while True:
        target = some_target(dice, len(image))
        stale = not pool.is_unfinished(one) and dice.one_in(6)
        if stale and target and not pool.is_out_of_range(image, target):
            return target
        if pool.is_valid(clumps, target):
            return target


# Sound pools by chance, each with a request that is cut more often than not.
def sound_pools():
    dice = Dice(2004)
    for index in range(160):
        image = sound_pool(dice, settled=index % 4 != 0)
        bodies = [pool.body_of(one) for one in pool.walk(image)]
        names = FIRST_NAMES[1:] if index % 4 else ("recover",)
        name = dice.pick(names)
        yield case(image, name, *some_numbers(dice, image, name, bodies),
                   fuse=some_fuse(dice))


DAMAGED = (MIXED, fresh(32768), unfinished(ACTIVATING, (4096, 1), (16704, 2), (17216, 3)),
           unfinished(FREEING, (16768, 1)),
           pool_of(*(clump(128, (FREE, ACTIVE, RESERVED)[at % 3]) for at in range(12))))


# Where a damaged word may lie: mostly in a clump's header.
def damaged_offset(dice, image):
    where = dice.below(8)
    if where == 0:
        return dice.below(len(image) // 8) * 8
    if where == 1:
        return 12288 + 8 * dice.below(512)
    return dice.pick(list(pool.walk(image))).offset + 8 * dice.below(8)


def damaged_word(dice, old):
    near = (old + dice.pick((-128, -64, -8, -1, 1, 8, 64, 128))) % 2**64
    return dice.pick((near, near, dice.below(6), dice.pick(EDGE_NUMBERS),
                      dice.pick(TARGETS), old + 2**32 & LARGEST, dice.word()))


# Valid pools with one word changed, or one bit.
def damage():
    dice = Dice(2005)
    for index in range(250):
        image = DAMAGED[index % len(DAMAGED)]
        bodies = [pool.body_of(one) for one in pool.walk(image)]
        at = damaged_offset(dice, image)
        if dice.one_in(3):
            image = flip_bit(image, at + dice.below(8), dice.below(8))
        else:
            image = with_words(image, {at: damaged_word(dice, pool.word(image, at))})
        name = "check" if dice.one_in(2) else dice.pick(FIRST_NAMES[1:])
        yield case(image, name, *some_numbers(dice, image, name, bodies),
                   fuse=some_fuse(dice))


# The states that each request on an offset asks for.
STATES_WANTED = {"onactive": (RESERVED,), "activate": (RESERVED,),
                 "onfree": (RESERVED, ACTIVE), "free": (ACTIVE, RESERVED),
                 "withdraw": (RESERVED, ACTIVE), "grow": (RESERVED, ACTIVE)}

# What a history is made of: more is reserved than freed, so the pool fills.
HISTORY_NAMES = ("reserve",) * 5 + ("onactive",) * 4 + ("onfree",) * 3 + (
    "activate",) * 3 + ("free",) * 3 + ("withdraw", "check")


# The next request of a history: mostly what the pool is ready for.
def next_request(dice, image, names):
    clumps = list(pool.walk(image))
    unready = any(map(pool.is_unfinished, clumps)) or pool.has_touching_free(clumps)
    if (unready and not dice.one_in(4)) or dice.one_in(30):
        return "recover", ()
    name = dice.pick(names)
    fitting = [pool.body_of(one) for one in clumps
               if one.state in STATES_WANTED.get(name, (FREE,))]
    if dice.one_in(12):
        fitting = [pool.body_of(one) for one in clumps]
    if not fitting:
        name = "reserve"
    return name, history_numbers(dice, image, clumps, name, fitting)


def history_numbers(dice, image, clumps, name, fitting):
    while True:
        numbers = some_numbers(dice, image, name, fitting)
        if len(numbers) < 3 or pool.is_valid(clumps, numbers[1]) or dice.one_in(30):
            return numbers


MOST_WORDS = 120


def words_in(image):
    return sum(1 for at in range(0, len(image) - 7, 8) if any(image[at:at + 8]))


# A history in a pool of 32,768 bytes: what was reserved, listed, activated and freed
# before shapes the image of the next case; now and then the power fails, after one of
# so many stores.  Every second step is a case.
def history(dice, names, turn, fuses_for):
    image = fresh(32768)
    for step in range(60):
        name, numbers = next_request(dice, image, names)
        fuse = dice.pick(fuses_for(image, name, numbers)) if dice.one_in(6) else LARGEST
        if words_in(image) > MOST_WORDS:
            break
        if step % 2 == turn:
            yield case(image, name, *numbers, fuse=fuse)
        image = after(image, name, *numbers, fuse=fuse)


def histories():
    for seed in range(3001, 3010):
        yield from history(Dice(seed), HISTORY_NAMES, seed % 2, lambda *_: range(7))


# ---------------------------------------------------------------------------
# Bytes to flush (W1 of document 02)
# ---------------------------------------------------------------------------

# Create where its words stand already, cut where its parts meet: over zeros all
# but four stores keep their words, and over the pool that it makes all but the
# first and the last.  They count, so the bytes to flush are as over any image.
def create_over_the_same_words():
    for fuse in (1, 2, 512, 513, 514, 1024, 1025, 1026, 1032):
        yield case(bytearray(16512), "create", fuse=fuse)
    for fuse in (1, 2, 513, 1024, 1032, 1033):
        yield case(fresh(16512), "create", fuse=fuse)


# Reserve with a split where the rest's header, the empty list and a body of zeros
# stand already; the same without a split.  Both forms.
def kept_reserve_choices():
    split = with_words(pool_of(clump(512, FREE)), {16512: 384, 16520: FREE})
    whole = pool_of(clump(128, ACTIVE), clump(192, FREE), clump(128, ACTIVE))
    for name in FORMS:
        yield split, name, (64,)
        yield whole, name, (100,)


# Onactive into the second entry and onfree into the third, each with the value
# that the empty entry has kept.
def kept_list_choices():
    reserved = pool_of(clump(128, RESERVED, (4096, 1), (0, 999)))
    active = pool_of(clump(128, ACTIVE, (4096, 1), (4104, 2), (0, 999)))
    yield reserved, "onactive", (16448, 8184, 999)
    yield active, "onfree", (16448, 16504, 999)


# Assignments whose targets hold the values already, in the static area, a lower
# body and a higher one: activated, freed between FREE neighbours, recovered.
def kept_assignment_choices():
    entries = [(16448, 7), (17216, 8), (4096, 9)]
    words = {16448: 7, 17216: 8, 4096: 9}
    yield with_words(unfinished(RESERVED, *entries), words), "activate", (16704,)
    yield with_words(unfinished(ACTIVE, *entries), words), "free", (16704,)
    yield with_words(unfinished(ACTIVATING, *entries), words), "recover", ()


# Grow with a rest whose header stands already.
def kept_grow_choices():
    image = pool_of(clump(128, ACTIVE), clump(512, FREE))
    yield with_words(image, {16576: 448, 16584: FREE}), "grow", (16448, 65)


# Each cut of these requests, some of whose stores keep their words: the changed
# words alone would give fewer bytes to flush.
def kept_words():
    for choices in (kept_reserve_choices, kept_list_choices, kept_assignment_choices,
                    kept_grow_choices):
        for image, name, numbers in choices():
            for fuse in range(stores_of(image, name, numbers) + 1):
                yield case(image, name, *numbers, fuse=fuse)


# Each cut of an activation that assigns to the last word of the largest image
# here and to both ends of the static area: the bytes to flush end with the image.
def last_word_assigned():
    image = pool_of(clump(128, FREE),
                    clump(128, RESERVED, (8184, 7), (65528, 8), (4096, 9)),
                    clump(65536 - 16640, ACTIVE))
    for fuse in range(stores_of(image, "activate", (16576,)) + 1):
        yield case(image, "activate", 16576, fuse=fuse)


# ---------------------------------------------------------------------------
# Onfree before activation (W4 of document 02)
# ---------------------------------------------------------------------------

# The neighbours, before and following, of the clump with the mixture.
NEIGHBOURS = ((ACTIVE, ACTIVE), (FREE, ACTIVE), (ACTIVE, FREE), (FREE, FREE))

# Mixtures in which every kind of entry stands beside every other.
TELLING_MIXTURES = ((UNMARKED, MARKED, UNMARKED), (MARKED, UNMARKED, MARKED))


# Each fuse from 0 to the list's length, and the largest.
def cut_everywhere(image, name, *numbers):
    for fuse in list(range(stores_of(image, name, numbers) + 1)) + [LARGEST]:
        yield case(image, name, *numbers, fuse=fuse)


# A RESERVED clump with each mixture of entries, its neighbours FREE or not by
# turns; with two of the mixtures between each pair of neighbours.
def reserved_mixtures():
    for index, mixture in enumerate(MIXTURES):
        yield mixture_pool(RESERVED, mixture, *NEIGHBOURS[index % 4])
    for mixture in TELLING_MIXTURES:
        for before, following in NEIGHBOURS:
            yield mixture_pool(RESERVED, mixture, before, following)


# Free of a RESERVED clump with each mixture, at every cut: with a marked entry the
# unmarked ones are emptied, then it goes by FREEING; without one it is dropped.
def mixtures_freed():
    for image in reserved_mixtures():
        yield from cut_everywhere(image, "free", 16576)


# Recovery of each of those cuts, the one before the first store too: up to the
# FREEING store nothing is carried out, from there on every marked entry is.
def mixtures_freed_and_recovered():
    for image in reserved_mixtures():
        for fuse in range(stores_of(image, "free", (16576,))):
            yield case(after(image, "free", 16576, fuse=fuse), "recover")


# A free cut before the FREEING store leaves a settled pool with a gap in the list:
# what each request makes of it.
def cut_frees_asked():
    image = mixture_pool(RESERVED, (UNMARKED, MARKED, UNMARKED), FREE, FREE)
    for fuse in (1, 2):
        cut = after(image, "free", 16576, fuse=fuse)
        for name, numbers in (("reserve", (64,)), ("onactive", (16576, 8184, 5)),
                              ("onfree", (16576, 8184, 5)), ("withdraw", (16576,)),
                              ("activate", (16576,)), ("free", (16576,)), ("check", ())):
            yield case(cut, name, *numbers)


# Recovery of ACTIVATING and FREEING clumps with each mixture: the first carries out
# and empties the unmarked entries alone, the second carries out all.  At every cut
# for some of them.
def mixtures_recovered():
    for state in (ACTIVATING, FREEING):
        for index, mixture in enumerate(MIXTURES):
            yield case(mixture_pool(state, mixture, *NEIGHBOURS[index % 4]), "recover")
        for mixture in TELLING_MIXTURES + ((MARKED,) * 3, (EMPTY, MARKED, UNMARKED)):
            image = mixture_pool(state, mixture, FREE, RESERVED)
            yield from cut_everywhere(image, "recover")


# Activate with each mixture, at every cut, and the recovery of each cut.
def mixtures_activated():
    for mixture in MIXTURES:
        image = mixture_pool(RESERVED, mixture)
        length = stores_of(image, "activate", (16576,))
        for fuse in range(length + 1):
            yield case(image, "activate", 16576, fuse=fuse)
        for fuse in range(1, length):
            yield case(after(image, "activate", 16576, fuse=fuse), "recover")


# Activate leaves the marked entries where they stand, also with gaps before them:
# then free of the ACTIVE clump, which carries them out; cut everywhere if there are
# two or more.
def mixtures_activated_and_freed():
    for index, mixture in enumerate(MIXTURES):
        image = mixture_pool(RESERVED, mixture, *NEIGHBOURS[index % 4])
        active = after(image, "activate", 16576)
        yield case(active, "free", 16576)
        if mixture.count(MARKED) >= 2:
            yield from cut_everywhere(active, "free", 16576)


# Free of an ACTIVE clump with each mixture: an unmarked entry is an old onfree, and
# is carried out in its place among the marked ones.  At every cut for some of them.
def mixtures_of_active_freed():
    for index, mixture in enumerate(MIXTURES):
        yield case(mixture_pool(ACTIVE, mixture, *NEIGHBOURS[index % 4]), "free", 16576)
    for mixture in TELLING_MIXTURES + ((EMPTY, MARKED, UNMARKED),):
        yield from cut_everywhere(mixture_pool(ACTIVE, mixture, FREE, FREE), "free", 16576)


# Each mixture with a mark is sound in each state that has a list, gaps and all.  (The
# ones without are entry_patterns'.)
def mixtures_checked():
    for state in (RESERVED, ACTIVATING, ACTIVE, FREEING):
        for mixture in MIXTURES:
            if MARKED in mixture:
                yield case(mixture_pool(state, mixture), "check")


# A new entry goes after the last used one of each mixture, never into a gap: answer
# 8 where the third is used, and there before 10.  Withdraw takes the last used one,
# marked or not; 9 where there is none.
def mixtures_listed():
    for mixture in MIXTURES:
        reserved, active = mixture_pool(RESERVED, mixture), mixture_pool(ACTIVE, mixture)
        yield case(reserved, "onactive", 16576, 8184, 5)
        for image in (reserved, active):
            yield case(image, "onfree", 16576, 8184, 5)
            yield case(image, "withdraw", 16576)
    for mixture in ((EMPTY, EMPTY, MARKED), (MARKED, EMPTY, UNMARKED), (EMPTY, MARKED, EMPTY)):
        for name in ("onactive", "onfree"):
            yield case(mixture_pool(RESERVED, mixture), name, 16576, 8192, 5)
        yield case(mixture_pool(ACTIVE, mixture), "onactive", 16576, 8184, 5)
        yield case(mixture_pool(ACTIVE, mixture), "onfree", 16576, 8185, 5)


# Cuts of onactive, onfree and withdraw in lists with gaps and marks, and the
# recovery of what they leave.
def mixtures_listed_and_cut():
    for mixture in ((EMPTY, MARKED, EMPTY), (MARKED, UNMARKED, EMPTY), (EMPTY,) * 3):
        for state, name in ((RESERVED, "onactive"), (RESERVED, "onfree"), (ACTIVE, "onfree")):
            image = mixture_pool(state, mixture)
            yield from cut_everywhere(image, name, 16576, 8184, 5)
            yield case(after(image, name, 16576, 8184, 5, fuse=1), "recover")
        if mixture != (EMPTY,) * 3:
            yield from cut_everywhere(mixture_pool(RESERVED, mixture), "withdraw", 16576)


# Onfree and onactive on a clump in each state: onfree takes RESERVED and ACTIVE,
# onactive RESERVED alone.  The target asked for has no mark: with bit 0 set it isn't
# divisible by 8.
def listed_in_each_state():
    for state in range(5):
        image = pool_of(clump(128, state), clump(128, ACTIVE))
        for target in (0, 1, 4096, 4097, 4098, 16449):
            yield case(image, "onfree", 16448, target, 5)
        for target in (4096, 4097):
            yield case(image, "onactive", 16448, target, 5)


# Onfree on a RESERVED clump with the targets on both sides of each border that are
# divisible by 8, and with the odd ones beside some.
def marked_targets_added():
    image = target_pool(ACTIVE, [], RESERVED, [(4096, 1)])
    for index, target in enumerate(TARGETS):
        if target % 8 == 0 or target % 8 == 1 and target < 2**32:
            yield case(image, "onfree", 16768, target, EDGE_NUMBERS[(index + 11) % 17])


# Stored words with bit 0 set, or with bit 1: targets that are 0, not divisible by 8,
# beside the static area and at its ends; in headers, in a FREE body (16640 to 16703),
# in live bodies and at their ends; at the end of the image and past it; ones that
# wrap.  1 is used, and its target is 0.
STORED = (
    1, 2, 3, 9, 4089, 4097, 4098, 4099, 4101, 4103, 8185, 8187, 8193, 16377, 16385,
    16441, 16449, 16569, 16577, 16641, 16697, 16705, 16769, 16889, 16961, 17017, 17019,
    17025, 2**32 + 4097, 2**63 + 4097, 2**64 - 7, 2**64 - 1)


# Each of them in each state: fault 3 by range where RESERVED, ACTIVE or (if marked)
# ACTIVATING, fault 5 by validity where FREEING, none where FREE.
def stored_targets():
    for index, stored in enumerate(STORED):
        entries = [(0, 9)] * (index % 3) + [(stored, 3)]
        for state in range(5):
            yield case(target_pool(ACTIVE, [], state, entries), "check")


# Two entries of an ACTIVATING or FREEING clump, marked or not, each with a target
# that is valid, in range only (a FREE body), or (ACTIVATING) out of range.  In
# ACTIVATING the marked are judged by range (3) and the unmarked by validity (5), 3
# first; in FREEING all by validity.
def pending_pairs():
    for state, targets in ((ACTIVATING, (4096, 16640, 8192)), (FREEING, (4096, 16640))):
        choices = [(kind, target) for kind in (UNMARKED, MARKED) for target in targets]
        for one, first in choices:
            for other, second in choices:
                entries = [entry(one, first, 1), (0, 9), entry(other, second, 2)]
                yield case(target_pool(ACTIVE, [], state, entries), "recover")


# Fault 3 of a marked entry in an ACTIVATING clump comes before fault 4, and before a
# fault 1 or 2 in a higher clump but not in a lower one.
def waiting_fault_order():
    bad = clump(128, ACTIVATING, (8193, 1), (8192, 2))
    yield case(pool_of(clump(128, ACTIVE), bad, clump(128, FREEING, (8, 1))), "check")
    yield case(pool_of(clump(128, FREEING), bad, clump(128, ACTIVE)), "check")
    image = pool_of(clump(128, ACTIVE), bad, clump(128, ACTIVE))
    for at in (16384, 16512, 16640):
        for fault in (1, 2):
            yield case(with_words(image, fault_words(fault, at)), "check")


# Two entries, marked or not, each valid or in a FREE body.  Answer 10: activate
# judges the unmarked, free of a RESERVED clump the marked (and nothing if there are
# none), free of an ACTIVE clump all.
def targets_judged():
    choices = [(kind, target) for kind in (UNMARKED, MARKED) for target in (4096, 16640)]
    for one, first in choices:
        for other, second in choices:
            entries = [entry(one, first, 1), entry(other, second, 2)]
            reserved = target_pool(ACTIVE, [], RESERVED, entries)
            yield case(reserved, "activate", 16768)
            yield case(reserved, "free", 16768)
            yield case(target_pool(ACTIVE, [], ACTIVE, entries), "free", 16768)


# One marked entry with a target on each side of the borders within the range that a
# sound list allows: free of the RESERVED clump judges it, activate doesn't.
def marked_targets_carried_out():
    for index, target in enumerate(IN_RANGE):
        entries = [(4104, 1), (0, 2)][:index % 3] + [entry(MARKED, target, 3)]
        image = target_pool(ACTIVE, [], RESERVED, entries)
        yield case(image, "free", 16768)
        if index % 3 == 0:
            yield case(image, "activate", 16768)


# The same target in all three entries, marked and not: the last one that is carried
# out wins, and activate then leaves the marked ones to win later.
def equal_targets():
    for mixture in MIXTURES:
        if EMPTY in mixture:
            continue
        entries = mixed_entries(mixture, (4096, 4096, 4096))
        for state, name in ((RESERVED, "activate"), (RESERVED, "free"), (ACTIVE, "free")):
            image = pool_of(clump(128, state, *entries), clump(128, ACTIVE))
            yield case(image, name, 16448)
            if mixture in TELLING_MIXTURES and state == RESERVED:
                yield from cut_everywhere(image, name, 16448)
        for state in (ACTIVATING, FREEING):
            yield case(pool_of(clump(128, state, *entries), clump(128, ACTIVE)), "recover")


# Targets in the clump's own body, in its neighbours' and at the end of the image:
# free of the RESERVED clump at every cut, and recovery; a RESERVED neighbour's body is
# live until recovery drops it.
def marked_targets_in_bodies():
    entries = mixed_entries((MARKED, UNMARKED, MARKED), (16576, 16448, 16760))
    image = pool_of(clump(128, RESERVED), clump(128, RESERVED, *entries), clump(128, ACTIVE))
    yield from cut_everywhere(image, "free", 16576)
    for fuse in range(stores_of(image, "free", (16576,))):
        yield case(after(image, "free", 16576, fuse=fuse), "recover")
    yield from cut_everywhere(image, "activate", 16576)


# A sound pool by chance with marks and gaps in its lists.
def marked_pool(dice, settled):
    image = sound_pool(dice, settled)
    for one in pool.walk(image):
        for listed in one.entries if one.state != FREE else ():
            chance = dice.below(5)
            if chance == 0:
                pool.put_word(image, listed.offset, 0)
            elif chance <= 2 and pool.is_used(listed):
                pool.put_word(image, listed.offset, pool.marked(listed.stored))
    return image


# Those pools, each with a request on one of its lists, or a recovery; half of them
# with a small fuse.
def marked_pools():
    dice = Dice(2006)
    for index in range(80):
        image = marked_pool(dice, settled=index % 4 != 0)
        name = dice.pick(FIRST_NAMES[2:7]) if index % 4 else "recover"
        fitting = [pool.body_of(one) for one in pool.walk(image)
                   if one.state in STATES_WANTED.get(name, (FREE,))]
        numbers = some_numbers(dice, image, name, fitting or (16448,))
        yield case(image, name, *numbers, fuse=some_fuse(dice))


# ---------------------------------------------------------------------------
# Reserved bodies come cleared (W5 of document 02)
# ---------------------------------------------------------------------------

# A size, and the nbytes of the FREE clump that it is reserved in: bodies of one and of
# two units.  Split, with a rest of 128 or more, in whose header and body old words
# stand; then whole, of just that size or larger than asked, by a little or by 64 too.
CLEARED_SPLIT = ((64, 256), (5, 320), (65, 320), (128, 448))
CLEARED_WHOLE = ((64, 128), (5, 128), (100, 192), (1, 192))


# Each of them in each form: (image, name, numbers), over the two kinds of old words by
# turns.
def dirty_choices():
    for index, (size, nbytes) in enumerate(CLEARED_SPLIT + CLEARED_WHOLE):
        image = dirty_pool(nbytes, (OLD_RECORD, OLD_BYTES)[index % 2])
        for name in FORMS:
            yield image, name, (size,)


# Every cut of these: each zero changes its word, so that the image between two stores
# tells which came first, and which words are cleared: the body's, all of them, and none
# of the rest's or of the neighbours'.
def dirty_bodies_reserved():
    for image, name, numbers in dirty_choices():
        yield from cut_everywhere(image, name, *numbers)


# Recovery of each of those cuts: it reads as not asked, and what was cleared stays so.
def dirty_bodies_recovered():
    for image, name, numbers in dirty_choices():
        for fuse in range(1, stores_of(image, name, numbers)):
            yield case(after(image, name, *numbers, fuse=fuse), "recover")


# The other kind of old words, cut before the first zero, in the middle, before the last
# and behind it, and not cut.
def other_dirty_bodies_reserved():
    for index, (size, nbytes) in enumerate(CLEARED_SPLIT + CLEARED_WHOLE):
        image = dirty_pool(nbytes, (OLD_BYTES, OLD_RECORD)[index % 2])
        length, zeros = stores_of(image, "reserve", (size,)), zeros_of(image, "reserve", (size,))
        for back in (zeros + 1, zeros // 2 + 1, 2, 1, 0):
            yield case(image, "reserve", size, fuse=length - back)
        yield case(image, "reserve_uncleared", size)


# Bodies of many units: 13, every word of which is an old one; 8 of them and 16, with a
# rest, and old words up to the rest's first body word; whole clumps of the usual pool
# and of the largest image here, and parts of them, with old words at both ends of the
# body, on both sides of the border of its first unit, of its last, and of its middle.
def many_units_choices():
    yield dirty_pool(896, OLD_BYTES), (800,)
    for units in (8, 16):
        image = pool_of(clump(64 * units + 64 + 320, FREE, (7, 7), (0, 7), (7, 7)))
        start, end = 16448, 16448 + 64 * units
        image = with_old_body(image, start, 64, OLD_RECORD)
        yield with_old_body(image, end - 256, 256 + 72, OLD_BYTES), (64 * units - 63,)
    for length, size in ((32768, 16320), (32768, 16000), (65536, 49088), (65536, 48001)):
        end = 16384 + pool.need_of(size)
        middle = (16448 + end) // 128 * 64
        old = {at + by: OLD_RECORD[5] + at for at in (16448, 16512, middle, end - 64, end)
               for by in (-8, 0, 8) if 16448 <= at + by < length}
        yield with_words(fresh(length), old), (size,)


# Each of them in each form, cut where the zeros begin, in their middle and where they
# end, and not cut.
def many_units_reserved():
    for image, numbers in many_units_choices():
        for name in FORMS:
            for fuse in telling_fuses(image, name, numbers) + [LARGEST]:
                yield case(image, name, *numbers, fuse=fuse)


# Recovery of some of those cuts: in the middle of the zeros, and just before the state.
def many_units_recovered():
    for image, numbers in many_units_choices():
        length, zeros = stores_of(image, "reserve", numbers), zeros_of(image, "reserve", numbers)
        for fuse in (length - 1 - zeros // 2, length - 1):
            yield case(after(image, "reserve", *numbers, fuse=fuse), "recover")


# The smallest pool, whose one body of 64 bytes has old words: each form with sizes up to
# one that has no room, and every cut of one of them.
def smallest_pool_reserved():
    for old in (OLD_RECORD, OLD_BYTES):
        image = with_old_body(fresh(16512), 16448, 64, old)
        for size in (0, 1, 5, 8, 63, 64, 65, 128, LARGEST - 63, LARGEST):
            yield from both_forms(image, size)
    for name in FORMS:
        yield from cut_everywhere(image, name, 5)


# A reserve that was cut before its first zero, in the middle and before the state: what
# is asked next.  Of a split the FREE clumps touch; of a whole clump the pool is settled,
# and another reserve begins again: the first form clears the whole body, the second
# leaves what the cut left.  Then each form after a recovery.
def cut_reserves_asked():
    for size, nbytes in ((65, 320), (100, 192)):
        image = dirty_pool(nbytes, OLD_BYTES)
        length = stores_of(image, "reserve", (size,))
        for fuse in (length - 17, length - 9, length - 1):
            cut = after(image, "reserve", size, fuse=fuse)
            for name, numbers in (("reserve", (size,)), ("reserve_uncleared", (size,)),
                                  ("reserve", (64,)), ("check", ()), ("free", (16448,)),
                                  ("activate", (16576,))):
                yield case(cut, name, *numbers)
            for name in FORMS:
                yield case(after(cut, "recover"), name, size)


# The technician's record: an ACTIVE one with its valve and position, freed, and its body
# reserved again, by itself or joined to its FREE neighbours; then activated.
def old_records():
    for before, following in NEIGHBOURS:
        image = pool_of(clump(128, before), clump(128, ACTIVE), clump(256, following))
        for at in (16448, 16576):
            image = with_old_body(image, at, 64, OLD_RECORD)
        freed = after(image, "free", 16576)
        for name in FORMS:
            for size in (64, 128):
                yield case(freed, name, size)
            place = pool.ask(bytearray(freed), name, (64,)).place
            yield case(after(freed, name, 64), "activate", place)
            yield case(after(freed, name, 64), "free", place)
            yield case(after(freed, name, 64), "recover")


# Lengths round the least one and fills that are no pool: the second form asks for no
# less than the first.  (A pool has its zero padding, so that no fill but 0 makes one.)
def no_pool_reserved():
    for length in (0, 8, 16384, 16448, 16504, 16511, 16512, 16513, 16576, 32768, 65536):
        yield case(shaped(length), "reserve_uncleared", 1)
        yield case(bytearray(length), "reserve_uncleared", 1)
    for name in FORMS:
        for fill in (1, 165, 255):
            yield case(filled(16512, fill), name, 64, fill=fill)
            yield case(filled(16512, fill), name, 0, fuse=0, fill=fill)


# Old words in every body of a FREE clump, as far as a case has room for them.
def dirtied(dice, image):
    offsets = [at for one in pool.walk(image) if one.state == FREE
               for at in range(pool.body_of(one), pool.end_of(one), 8)]
    room = MOST_WORDS - words_in(image)
    return with_words(image, {at: dice.pick((dice.word(), 1, 2**56, LARGEST))
                              for at in offsets[:room]})


# Sound pools by chance with such bodies, reserved in either form, cut more often than
# not, and where the zeros are more often than elsewhere.
def dirty_pools():
    dice = Dice(2007)
    for index in range(100):
        image = dirtied(dice, sound_pool(dice, settled=index % 9 != 0))
        name = FORMS[index % 2]
        size = dice.pick((1, 5, 64, 65, 100, 128, 192, dice.between(1, 320)))
        fuses = telling_fuses(image, name, (size,)) + [LARGEST]
        yield case(image, name, size, fuse=dice.pick(fuses))


# Histories with both forms, in which more is freed than in the others, so that bodies
# with assigned words in them are reserved again; a reserve is cut among its zeros too.
def histories_of_both_forms():
    names = FORMS * 3 + ("onactive",) * 4 + ("activate",) * 3 + ("free",) * 4 + ("onfree",)
    for seed in (3013, 3017, 3032):
        yield from history(Dice(seed), names, seed % 2, telling_fuses)


# ---------------------------------------------------------------------------
# Grow a record where it stands (W6 of document 02)
# ---------------------------------------------------------------------------

# Sizes round each multiple of 64: a body of 128 is enough already; then rests of 256, of
# 192, of 128 and smaller, none, and no room.  The clump grows by 64 bytes and by more.
def sizes_grown():
    for state in (RESERVED, ACTIVE):
        image = growing_pool(state, 192, 320, OLD_RECORD)
        for multiple in range(0, 576, 64):
            for size in (multiple - 1, multiple, multiple + 1):
                if size >= 0:
                    yield case(image, "grow", GROWING, size)


# The nbytes of a clump, and a size that it is to grow to: by 64 bytes (128 are the least
# that a FREE clump has), by 128, by 192 and by 256.
GROWTHS = ((128, 65), (128, 129), (192, 300), (256, 420))


# Each of them with a FREE clump from 64 too small (where that is 128 or more) up to a rest
# of 192, RESERVED and ACTIVE; over each kind of old words, with a full list or one with
# gaps, by turns.  (image, numbers)
def growing_choices(last):
    turn = 0
    for nbytes, size in GROWTHS:
        more = pool.need_of(size) - nbytes
        for following in range(max(more - 64, 128), more + 256, 64):
            for state in (RESERVED, ACTIVE):
                mixture = TELLING_MIXTURES[turn % 2] if turn % 3 else (EMPTY, MARKED, EMPTY)
                yield (growing_pool(state, nbytes, following, OLD_WORDS[turn % 3],
                                    *mixed_entries(mixture), last=last), (GROWING, size))
                turn += 1


# Every cut of these: each store changes its word, so that the image between two of them
# tells which came first, and which words are stored: the rest's nbytes and state and the
# clump's nbytes, none of a list, a body, or the old next header.
def growing_choices_cut():
    for image, numbers in growing_choices(ACTIVE):
        yield from cut_everywhere(image, "grow", *numbers)


# Recovery behind the last store but one, and behind the last, RESERVED and ACTIVE by
# turns.  Without the last it is that of the pool that wasn't asked: an ACTIVE clump has
# the old size, a RESERVED one is dropped.  What is FREE behind it is joined to the last
# clump, which was RESERVED.
def growing_choices_recovered():
    for index, (image, numbers) in enumerate(growing_choices(RESERVED)):
        length = stores_of(image, "grow", numbers)
        for fuse in range(max(length - 1, 1), length + 1) if index % 4 in (0, 3) else ():
            yield case(after(image, "grow", *numbers, fuse=fuse), "recover")


# What stands behind the clump: nothing, a RESERVED clump, an ACTIVE one, FREE ones of 128
# and of 192.  A FREE clump before it, which would do, isn't taken, nor is one further on.
# Sizes that are enough, up to one that no clump behind it reaches.
def next_clumps():
    further = (clump(128, ACTIVE), clump(704, FREE))
    for state in (RESERVED, ACTIVE):
        for behind in ((), (clump(512, RESERVED), *further), (clump(512, ACTIVE), *further),
                       (clump(128, FREE), *further), (clump(192, FREE), *further)):
            image = pool_of(clump(512, FREE), clump(192, state), *behind)
            for size in (128, 129, 256, 257, 321):
                yield case(image, "grow", 16960, size)


# A fuse means nothing to a clump that has enough: it is done with any.
def enough_with_any_fuse():
    for offset, size in ((MIXED_ACTIVE, 192), (MIXED_RESERVED, 65), (MIXED_BARE_ACTIVE, 1)):
        for fuse in (0, 1):
            yield case(MIXED, "grow", offset, size, fuse=fuse)


# The huge sizes with room behind the clump, and where it is the last; some of them for a
# FREE clump and for none, where 7 and 6 come first.
def huge_sizes_grown():
    for index, size in enumerate(HUGE_SIZES):
        state = (ACTIVE, RESERVED)[index % 2]
        yield case(pool_of(clump(128, state), clump(16256, FREE)), "grow", 16448, size)
        yield case(pool_of(clump(128, FREE), clump(128, state)), "grow", 16576, size)
    for size in (2**64 - 64, LARGEST):
        for offset in (MIXED_FREE, 17472, 16456, LARGEST):
            yield case(MIXED, "grow", offset, size)


# The order of the tests, 4 before 6 and 7, these before 5: of no clump (0, a header, the
# middle of a body, past the end, one that wraps), of FREE ones, of live ones before a FREE
# clump and before a live one; size 0, one that is enough, and one that has no room.
def tests_of_grow_in_order():
    for offset in (0, 16384, 16448, 16456, 16512, 16640, 16704, 16896, 17088, 17344,
                   17472, 17920, 2**64 - 64):
        for size in (0, 64, 1000):
            yield case(MIXED, "grow", offset, size)


# Answer 3 where the clump is unfinished itself (and not 7), or the next one, or one far
# off, or where two FREE clumps touch, behind it or far off: before 4, 5 and 0.
def unsettled_grown():
    images = (
        pool_of(clump(128, ACTIVATING), clump(256, FREE)),
        pool_of(clump(128, FREEING), clump(256, FREE)),
        pool_of(clump(128, RESERVED), clump(256, ACTIVATING)),
        pool_of(clump(128, ACTIVE), clump(256, FREEING), clump(128, FREE)),
        pool_of(clump(128, ACTIVE), clump(128, FREE), clump(256, FREE)),
        pool_of(clump(128, RESERVED), clump(256, FREE), clump(128, ACTIVATING)),
        pool_of(clump(128, ACTIVE), clump(256, FREE), clump(128, ACTIVE), clump(128, FREE),
                clump(128, FREE)))
    for image in images:
        for size in (0, 64, 65, 1000):
            yield case(image, "grow", 16448, size)


# Lengths round the least one and fills that are no pool, with numbers that would get a
# later answer too.
def no_pool_grown():
    for index, length in enumerate((0, 8, 16384, 16448, 16504, 16511, 16512, 16513, 16576,
                                    32768, 65536)):
        size = (1, 0, LARGEST)[index % 3]
        yield case(shaped(length), "grow", 16448, size)
        yield case(bytearray(length), "grow", 16448, size)
    for fill in (1, 165, 255):
        yield case(filled(16512, fill), "grow", 16448, 64, fill=fill)
        yield case(filled(16512, fill), "grow", 0, 0, fuse=0, fill=fill)


# The smallest pool, whose one clump has no next, and the smallest with a next one, which
# is taken whole or not at all.
def smallest_pools_grown():
    for state in (RESERVED, ACTIVE):
        for size in (1, 63, 64, 65, 128):
            yield case(pool_of(clump(128, state)), "grow", 16448, size)
        image = with_old_body(pool_of(clump(128, state), clump(128, FREE)), 16576, 64, OLD_BYTES)
        for size in (64, 65, 128, 129, 192, 193):
            yield case(image, "grow", 16448, size)


# Records that grow by many units, in the usual pool and in the largest image here: by 64
# too many, to the whole pool, to rests of 64, 128 and 192, and to about a third; with old
# words on both sides of the border where they shall end.
def many_units_grown():
    for index, length in enumerate((32768, 65536)):
        room = length - 16384
        for need in (room + 64, room, room - 64, room - 128, room - 192, room // 192 * 64):
            state = (RESERVED, ACTIVE)[(index + need // 64) % 2]
            image = pool_of(clump(192, state, (4096, 1)), clump(room - 192, FREE))
            end = 16384 + need
            image = with_words(image, {at: at + 1 for at in range(end - 16, end + 72, 8)
                                       if at < length})
            yield from cut_everywhere(image, "grow", 16448, need - 64 - need // 64 % 64)


# A list with each mixture of entries stays as it is, and no target is judged: in the
# clump's own body, in the next header, which the grown body covers, and in the FREE body.
def mixtures_grown():
    for index, mixture in enumerate(MIXTURES):
        entries = mixed_entries(mixture, (16576, 16640, 16896))
        image = growing_pool((RESERVED, ACTIVE)[index % 2], 128, (192, 448)[index % 4 // 2],
                             OLD_WORDS[index % 3], *entries)
        yield case(image, "grow", GROWING, 200)


# Targets on both sides of each border that the grow moves: the end of the old body; the
# next header and body, which the grown body covers; its end, where the rest's header is,
# and the rest's body; the last clump's.  Listed before the grow and judged behind it,
# when the clump is activated or freed; then asked for behind it.
def targets_grown_over():
    for index, target in enumerate((16632, 16640, 16696, 16704, 16824, 16832, 16888, 16896,
                                    17080, 17088, 17152)):
        name, kind = (("activate", UNMARKED), ("free", MARKED))[index % 2]
        listed = growing_pool(RESERVED, 128, 448, OLD_RECORD, entry(kind, target, 5))
        grown = after(listed, "grow", GROWING, 200)
        yield case(listed, name, GROWING)
        yield case(grown, name, GROWING)
        yield case(grown, "onfree", GROWING, target, 6)


# What is asked behind a grow with a rest, before its last store and behind it, and behind
# one without a rest: each request, and grow again, for less, for more and for too many.
def grows_asked():
    asked = (("reserve", (64,)), ("reserve_uncleared", (64,)),
             ("onactive", (GROWING, 16640, 5)), ("onfree", (GROWING, 16824, 5)),
             ("withdraw", (GROWING,)), ("activate", (GROWING,)), ("free", (GROWING,)),
             ("check", ()), ("recover", ()), ("grow", (GROWING, 64)), ("grow", (GROWING, 257)),
             ("grow", (GROWING, 700)))
    for state, following, fuse in ((RESERVED, 512, 2), (RESERVED, 512, 3), (ACTIVE, 512, 3),
                                   (ACTIVE, 256, 1)):
        image = growing_pool(state, 128, following, OLD_HEADER, (4097, 1), last=RESERVED)
        grown = after(image, "grow", GROWING, 200, fuse=fuse)
        for name, numbers in asked:
            yield case(grown, name, *numbers)


# One record that grows again and again, by one unit, until nothing is left behind it; the
# one before it and the one behind it have no room then either.
def grows_behind_grows():
    for state in (RESERVED, ACTIVE):
        image = growing_pool(state, 128, 512, OLD_HEADER)
        for size in range(65, 641, 64):
            yield case(image, "grow", GROWING, size)
            image = after(image, "grow", GROWING, size)
        yield case(image, "grow", 16448, 65)
        yield case(image, "grow", 17216, 65)


# A live clump, most often one before a FREE clump, and a size from what it has to about
# what the two have together.
def some_growth(dice, image):
    clumps = list(pool.walk(image))
    live = [one for one in clumps if one.state in (RESERVED, ACTIVE)]
    before_free = [one for one, behind in zip(clumps, clumps[1:])
                   if one in live and behind.state == FREE]
    one = dice.pick((not dice.one_in(6) and before_free) or live or clumps)
    more = dice.pick((0, 1, 64, 65, 100, 128, 200, dice.between(1, 384)))
    return pool.body_of(one), one.nbytes - 64 + more


# Sound pools by chance with old words in their FREE bodies, and marks and gaps in every
# second one's lists: one of their clumps grows; half of them with a small fuse.
def grown_pools():
    dice = Dice(2008)
    for index in range(75):
        some_pool = (sound_pool, marked_pool)[index % 2]
        image = dirtied(dice, some_pool(dice, settled=index % 9 != 0))
        fuse = dice.between(0, 3) if dice.one_in(2) else LARGEST
        yield case(image, "grow", *some_growth(dice, image), fuse=fuse)


# Valid pools with one word changed, mostly in a clump's header, asked to grow.
def damage_grown():
    dice = Dice(2009)
    for index in range(36):
        image = DAMAGED[index % len(DAMAGED)]
        bodies = [pool.body_of(one) for one in pool.walk(image) if one.state != FREE]
        at = damaged_offset(dice, image)
        image = with_words(image, {at: damaged_word(dice, pool.word(image, at))})
        yield case(image, "grow", *some_numbers(dice, image, "grow", bodies or (16448,)),
                   fuse=some_fuse(dice))


# Histories in which records grow, in pools where others are freed behind them.
def histories_of_growth():
    names = ("grow",) * 10 + ("reserve_uncleared",) * 4 + ("free",) * 4 + ("activate", "onfree")
    for seed in (3041, 3042):
        yield from history(Dice(seed), names, seed % 2, telling_fuses)


FAMILIES = (
    lengths, no_pool_for_every_request, header_bits, total_sizes, padding,
    no_pool_before_faults, bad_sizes, last_64_bytes, bad_states, entry_patterns,
    listed_targets, pending_targets, pending_target_in_each_state, second_unfinished,
    fault_order_1_to_3, fault_order_4_and_5, fault_for_every_request, not_settled,
    settled_after_all, sizes_round_64, rests, first_fits, huge_sizes, offsets_asked,
    targets_added, lists_filled, values_added, withdrawals, targets_carried_out,
    targets_gone, case_j, every_cut, wide_fuses, fuses_of_refusals, create_cuts,
    create_over_a_pool, after_create_cuts, recoveries, recoveries_cut_again,
    longer_and_longer_recoveries, cut_images_asked, dust, garbage, garbage_clumps,
    nearly_right_pools, sound_pools, damage, histories, create_over_the_same_words,
    kept_words, last_word_assigned, mixtures_freed, mixtures_freed_and_recovered,
    cut_frees_asked, mixtures_recovered, mixtures_activated,
    mixtures_activated_and_freed, mixtures_of_active_freed, mixtures_checked,
    mixtures_listed, mixtures_listed_and_cut, listed_in_each_state,
    marked_targets_added, stored_targets, pending_pairs, waiting_fault_order,
    targets_judged, marked_targets_carried_out, equal_targets,
    marked_targets_in_bodies, marked_pools, dirty_bodies_reserved,
    dirty_bodies_recovered, other_dirty_bodies_reserved, many_units_reserved,
    many_units_recovered, smallest_pool_reserved, cut_reserves_asked, old_records,
    no_pool_reserved, dirty_pools, histories_of_both_forms, sizes_grown,
    growing_choices_cut, growing_choices_recovered, next_clumps, enough_with_any_fuse,
    huge_sizes_grown, tests_of_grow_in_order, unsettled_grown, no_pool_grown,
    smallest_pools_grown, many_units_grown, mixtures_grown, targets_grown_over,
    grows_asked, grows_behind_grows, grown_pools, damage_grown, histories_of_growth)


def all_cases():
    seen = set()
    cases = []
    for family in FAMILIES:
        for one in family():
            if one not in seen:
                seen.add(one)
                cases.append(one)
    return cases
