"""A model of the pool, written from document 01 and in its order, and from
requests W1, W4, W5 and W6 of document 02.

An image is a bytearray.  A request takes the image, its numbers and a fuse,
changes the image as far as the fuse lasts, and returns
(answer, place, fault, stores, flush_from, flush_to).  The comment above a
function quotes the rule that the function follows: document 01's, or W1's, W4's, W5's
or W6's where it says so.  What W4 and W5 change, 01 no longer says: only the changed
rule stands here.  Nothing here is quick or clever: it is meant to be held against
the papers, line by line.
"""

from collections import namedtuple
from functools import wraps

LARGEST = 2**64 - 1

# "Answer, place, fault number, count of stores."  W1: "Every answer should also
# carry the lowest offset stored to and the offset just past the highest."
Answer = namedtuple("Answer", "answer place fault stores flush_from flush_to")
# An entry of the on-list: its place (the offset of its target word), the word that
# is stored there, mark and all, and the value.
Entry = namedtuple("Entry", "offset stored value")
Clump = namedtuple("Clump", "offset nbytes state entries")


# "All words are unsigned, 8 bytes, least significant byte first, at offsets
# divisible by 8."
def word(image, offset):
    assert offset % 8 == 0 and 0 <= offset <= len(image) - 8
    return int.from_bytes(image[offset:offset + 8], "little")


# "Each store changes at most one aligned word."
def put_word(image, offset, value):
    # A slice past the end would make a bytearray grow, so it is shut out here.
    assert offset % 8 == 0 and 0 <= offset <= len(image) - 8
    image[offset:offset + 8] = value.to_bytes(8, "little")


# ---------------------------------------------------------------------------
# Pages
# ---------------------------------------------------------------------------

STATIC = 4096
STATIC_END = 8192
HEADER = 12288
SECOND_SIGNATURE_WORD = 12296
TOTAL_SIZE = 12304
PADDING = 12312
CLUMPS = 16384

SIGNATURE = b"*PMEMALLOC_POOL\0"


# "Length: 16,512 to 1,073,741,824 bytes, divisible by 64."
def has_good_length(image):
    return 16512 <= len(image) <= 1073741824 and len(image) % 64 == 0


# "12288 | signature `*PMEMALLOC_POOL` and one zero byte (16 bytes)"
def has_signature(image):
    return image[HEADER:TOTAL_SIZE] == SIGNATURE


# "12304 | total size, equal to the image's length"
def has_total_size(image):
    return word(image, TOTAL_SIZE) == len(image)


# "12312 to 16383 | zero"
def has_zero_padding(image):
    return not any(image[PADDING:CLUMPS])


# "not a pool: length, signature, total size or zero padding"
def is_pool(image):
    return (has_good_length(image) and has_signature(image)
            and has_total_size(image) and has_zero_padding(image))


# ---------------------------------------------------------------------------
# Clump header, 64 bytes
# ---------------------------------------------------------------------------

FREE, RESERVED, ACTIVATING, ACTIVE, FREEING = range(5)

STATE_WORD = 8
TARGET_WORDS = (16, 32, 48)
HEADER_BYTES = 64


# "Word 0 is nbytes, header included.  Word 8 is the state [..].  Offsets 16, 32
# and 48 hold the three entries of the on-list, each a target word and then a
# value word"
def clump_at(image, offset):
    entries = tuple(
        Entry(offset + at, word(image, offset + at), word(image, offset + at + 8))
        for at in TARGET_WORDS)
    return Clump(offset, word(image, offset), word(image, offset + STATE_WORD), entries)


# W4: "only a stored 0 is empty"
def is_used(entry):
    return entry.stored != 0


# W4: "Bit 0 of a stored target marks an onfree entry"
def is_marked(entry):
    return entry.stored % 2 == 1


# W4: "the target is the number without it"
def target_of(entry):
    return entry.stored - entry.stored % 2


# W4: "Onfree always writes it": the word that is stored for a target and the mark.
def marked(target):
    return target + 1


# "a used entry": one that isn't empty.
def used_entries(clump):
    return [entry for entry in clump.entries if is_used(entry)]


# W4: "the unmarked entries", of the used ones: an empty entry is neither.
def unmarked_entries(clump):
    return [entry for entry in used_entries(clump) if not is_marked(entry)]


# W4: "marked ones".  A stored 1 is one of them, and its target is 0.
def marked_entries(clump):
    return [entry for entry in used_entries(clump) if is_marked(entry)]


# W4: "An unmarked entry of an ACTIVE or FREEING clump is an old onfree and counts
# as one."  In a RESERVED clump only the marked entries are onfree's.
def onfree_entries(clump):
    if clump.state in (ACTIVE, FREEING):
        return used_entries(clump)
    return marked_entries(clump)


# "The body is what follows the header."
def body_of(clump):
    return clump.offset + HEADER_BYTES


# "its offset plus nbytes"
def end_of(clump):
    return clump.offset + clump.nbytes


# "a clump is ACTIVATING or FREEING"
def is_unfinished(clump):
    return clump.state in (ACTIVATING, FREEING)


# ---------------------------------------------------------------------------
# A sound pool
# ---------------------------------------------------------------------------

# "The walk starts at 16384; each clump is followed by the one at its offset
# plus nbytes."
def walk(image):
    # A generator, so that a judge can stop at a bad size before it is stepped by.
    offset = CLUMPS
    while offset < len(image):
        clump = clump_at(image, offset)
        yield clump
        offset = end_of(clump)


# "1. size: nbytes not divisible by 64, below 128, or past the end"
def has_bad_size(image, clump):
    return clump.nbytes % 64 != 0 or clump.nbytes < 128 or end_of(clump) > len(image)


# "2. state above 4"
def has_bad_state(clump):
    return clump.state > 4


# "a target that isn't divisible by 8 or lies neither in 4096..8184 nor in
# 16384..length-8"
def is_out_of_range(image, target):
    in_static = 4096 <= target <= 8184
    in_clumps = 16384 <= target <= len(image) - 8
    return target % 8 != 0 or not (in_static or in_clumps)


# "3. list: in a RESERVED or ACTIVE clump [..] a target [..]".  W4, of an ACTIVATING
# clump: "marked ones wait, judged there by the rest of fault 3".
def entries_of_fault_3(clump):
    if clump.state in (RESERVED, ACTIVE):
        return used_entries(clump)
    if clump.state == ACTIVATING:
        return marked_entries(clump)
    return []


# "3. list: [..] a target that isn't divisible by 8 or lies neither in [..] nor in
# [..]".  That is the rest of it: W4: "Gaps are now sound in every state."
def has_bad_list(image, clump):
    return any(is_out_of_range(image, target_of(entry))
               for entry in entries_of_fault_3(clump))


# "Faults 1 to 3 are sought together, lowest clump first and in that order
# within it"
def fault_within(image, clump):
    if has_bad_size(image, clump):
        return 1
    if has_bad_state(clump):
        return 2
    if has_bad_list(image, clump):
        return 3
    return 0


# "its 8 bytes lie [..] wholly in one body whose clump isn't FREE"
def lies_in_live_body(clumps, target):
    return any(clump.state != FREE and body_of(clump) <= target
               and target + 8 <= end_of(clump) for clump in clumps)


# "A target is valid if divisible by 8 and its 8 bytes lie in the static area or
# wholly in one body whose clump isn't FREE."
def is_valid(clumps, target):
    in_static = STATIC <= target and target + 8 <= STATIC_END
    return target % 8 == 0 and (in_static or lies_in_live_body(clumps, target))


# "a used target that isn't valid", the other way round, of some entries
def all_targets_valid(clumps, entries):
    return all(is_valid(clumps, target_of(entry)) for entry in entries)


# "5. in the one ACTIVATING or FREEING clump, a used target [..]".  W4: "recovery of
# an ACTIVATING clump [judges] the unmarked entries"; of the marked ones: "fault 5
# looks at them only in a FREEING clump".
def entries_of_fault_5(clump):
    if clump.state == ACTIVATING:
        return unmarked_entries(clump)
    return used_entries(clump)


# "4. a second clump that is ACTIVATING or FREEING; 5. in the one ACTIVATING or
# FREEING clump, a used target that isn't valid.  Empty entries may stand
# anywhere in such a clump."
def fault_across(clumps):
    unfinished = [clump for clump in clumps if is_unfinished(clump)]
    if len(unfinished) > 1:
        return 4, unfinished[1].offset
    if unfinished and not all_targets_valid(clumps, entries_of_fault_5(unfinished[0])):
        return 5, unfinished[0].offset
    return 0, 0


# "Faults 1 to 3 are sought together [..]; then 4, then 5.  The place is the
# header offset of the clump at fault (for 4, of the second)."
def fault_and_place(image):
    clumps = []
    for clump in walk(image):
        fault = fault_within(image, clump)
        if fault:
            return fault, clump.offset
        clumps.append(clump)
    return fault_across(clumps)


# ---------------------------------------------------------------------------
# What a request answers
# ---------------------------------------------------------------------------

class Refused(Exception):
    """Ends a request at the first test that holds."""

    def __init__(self, answer, place=0, fault=0):
        super().__init__(answer, place, fault)
        # "Answers 1 to 10 make no store."  W1: "Both are 0 when nothing was
        # stored."; "This joins the shared answer, refusals included".
        self.given = Answer(answer, place, fault, 0, 0, 0)


# "Tests go by rising number; each answer is given exactly when its test is the
# first to hold."
def request(body):
    @wraps(body)
    def asked(*numbers, **options):
        try:
            return body(*numbers, **options)
        except Refused as refused:
            return refused.given
    return asked


# "1 | not a pool"; "2 | not sound"
def sound_clumps(image):
    if not is_pool(image):
        raise Refused(1)
    fault, place = fault_and_place(image)
    if fault:
        raise Refused(2, place, fault)
    return list(walk(image))


# "two FREE clumps touch"
def has_touching_free(clumps):
    return any(one.state == FREE and next_one.state == FREE
               for one, next_one in zip(clumps, clumps[1:]))


# "3 | sound, but a clump is ACTIVATING or FREEING, or two FREE clumps touch"
def settled_clumps(image):
    clumps = sound_clumps(image)
    if any(is_unfinished(clump) for clump in clumps) or has_touching_free(clumps):
        raise Refused(3)
    return clumps


# "6 | no clump has its body at that offset"
def clump_with_body(clumps, offset):
    for clump in clumps:
        if body_of(clump) == offset:
            return clump
    raise Refused(6)


# "7 | state doesn't allow it"
def demand_state(clump, *states):
    if clump.state not in states:
        raise Refused(7)


# "8 | list full".  W4: "A new entry goes after the last used one, answer 8 if that
# is the third."  Where none is used, it goes first.
def entry_after_the_last_used(clump):
    place = 0
    for at, entry in enumerate(clump.entries):
        if is_used(entry):
            place = at + 1
    if place == 3:
        raise Refused(8)
    return clump.entries[place]


# "9 | list empty (withdraw)"
def last_used_entry(clump):
    if not used_entries(clump):
        raise Refused(9)
    return used_entries(clump)[-1]


# "10 | target not valid"
def demand_valid_target(clumps, target):
    if not is_valid(clumps, target):
        raise Refused(10)


# "every used target must be valid now, else 10", of the entries that are judged
def demand_valid_targets(clumps, entries):
    if not all_targets_valid(clumps, entries):
        raise Refused(10)


# "Check also gives five byte totals, one for each state, each the sum of nbytes
# over the clumps in that state"
def totals_of(clumps):
    return tuple(sum(clump.nbytes for clump in clumps if clump.state == state)
                 for state in range(5))


# "Check and recover never give 3."  "With a refusal all five are 0."  W1: "Both
# are 0 when nothing was stored."
def check(image):
    try:
        return Answer(0, 0, 0, 0, 0, 0), totals_of(sound_clumps(image))
    except Refused as refused:
        return refused.given, (0, 0, 0, 0, 0)


# ---------------------------------------------------------------------------
# Stores and the fuse
# ---------------------------------------------------------------------------

# W1: "the lowest offset stored to and the offset just past the highest.  Both are
# 0 when nothing was stored.  A store that keeps a word's value still counts."
def bytes_to_flush(made):
    if not made:
        return 0, 0
    offsets = [offset for offset, _ in made]
    # "A finished create gives 4096 and 16448": its highest word is at 16440, so
    # "just past" means past that word's 8 bytes.
    return min(offsets), max(offsets) + 8


# "A request is a definite list of word stores.  It carries a fuse, the number
# of stores that the power lasts for, and makes the first so many.  If the list
# is longer, the answer is 11; a fuse equal to its length is enough."  W1: "A cut
# answer covers only the stores made."
def carry_out(image, stores, place, fuse):
    made = stores[:fuse]
    for offset, value in made:
        put_word(image, offset, value)
    if len(stores) > fuse:
        return Answer(11, 0, 0, len(made), *bytes_to_flush(made))
    return Answer(0, place, 0, len(made), *bytes_to_flush(made))


# "Word 8 is the state"
def state_store(clump, state):
    return clump.offset + STATE_WORD, state


# "each value to its target, in list order", of the entries that are carried out
def assignments(entries):
    return [(target_of(entry), entry.value) for entry in entries]


# "0 to each used target word of the list, first to last".  W4: "empty the unmarked
# entries"; "empties the unmarked ones first to last".
def emptying_of_unmarked(clump):
    return [(entry.offset, 0) for entry in unmarked_entries(clump)]


# "the words 12296 to 16376 upward as the header wants them"
def header_stores(length):
    wanted = {SECOND_SIGNATURE_WORD: int.from_bytes(SIGNATURE[8:], "little"),
              TOTAL_SIZE: length}
    return [(offset, wanted.get(offset, 0))
            for offset in range(SECOND_SIGNATURE_WORD, CLUMPS, 8)]


# "the eight words at 16384 (nbytes = length - 16384, then zeros)"
def only_clump_stores(length):
    return [(CLUMPS, length - CLUMPS)] + [(CLUMPS + at, 0) for at in range(8, 64, 8)]


# "Create: 0 to 12288; 0 to each static word, upward; the words 12296 to 16376
# [..]; the eight words at 16384 [..]; last the first signature word at 12288."
def create_stores(length):
    return ([(HEADER, 0)]
            + [(offset, 0) for offset in range(STATIC, STATIC_END, 8)]
            + header_stores(length)
            + only_clump_stores(length)
            + [(HEADER, int.from_bytes(SIGNATURE[:8], "little"))])


# "Create gives 1 only for length."
@request
def create(image, fuse=LARGEST):
    if not has_good_length(image):
        raise Refused(1)
    return carry_out(image, create_stores(len(image)), 0, fuse)


# "need = 64 + the size rounded up to a multiple of 64, in whole numbers, never
# wrapped."
def need_of(size):
    return 64 + (size + 63) // 64 * 64


# "The scan stops at the first FREE clump with nbytes at least need."
def first_fit(clumps, need):
    for clump in clumps:
        if clump.state == FREE and clump.nbytes >= need:
            return clump
    raise Refused(5)


# "0 to the three targets of the chosen clump"
def targets_cleared(clump):
    return [(entry.offset, 0) for entry in clump.entries]


# "With a rest of 128 or more [it is split].  With a smaller rest the whole clump is
# used".  W6, of grow: "splitting off a rest by reserve's rule".
def is_split_off(rest):
    return rest >= 128


# "nbytes and state FREE of the rest's header".  Its list isn't stored: "The list of a
# FREE clump and the value of an empty entry mean nothing."
def rest_header(offset, nbytes):
    return [(offset, nbytes), (offset + STATE_WORD, FREE)]


# "With a rest of 128 or more: nbytes and state FREE of the rest's header; then
# 0 to the three targets of the chosen clump; nbytes = need": its sizes are right.
def split_stores(clump, need):
    return (rest_header(clump.offset + need, clump.nbytes - need)
            + targets_cleared(clump) + [(clump.offset, need)])


# W5: "0 to every word of the body, upward", of a clump whose size is right: the body
# ends where the next clump begins, however small the size that was asked for.
def body_cleared(clump):
    return [(offset, 0) for offset in range(body_of(clump), end_of(clump), 8)]


# "With a rest of 128 or more [it is split] [..]; state RESERVED.  With a smaller rest
# the whole clump is used: targets, state".  W5: "Reserve stores 0 to every word of the
# body, upward, after the sizes are right and before the state becomes RESERVED.";
# "A second form of the request keeps the old rule": 7 stores or 4.
def reserve_stores(clump, need, clears):
    if is_split_off(clump.nbytes - need):
        sizing, taken = split_stores(clump, need), clump._replace(nbytes=need)
    else:
        sizing, taken = targets_cleared(clump), clump
    clearing = body_cleared(taken) if clears else []
    return sizing + clearing + [state_store(taken, RESERVED)]


# "reserve: the body's offset"; "4 | size 0"; "5 | no room".  Both of W5's forms.
def take_clump(image, size, clears, fuse):
    clumps = settled_clumps(image)
    if size == 0:
        raise Refused(4)
    need = need_of(size)
    clump = first_fit(clumps, need)
    return carry_out(image, reserve_stores(clump, need, clears), body_of(clump), fuse)


# W5: "Reserved bodies come cleared."
@request
def reserve(image, size, fuse=LARGEST):
    return take_clump(image, size, True, fuse)


# W5: "A second form of the request keeps the old rule, for callers that write every
# byte themselves": "The body isn't cleared."
@request
def reserve_uncleared(image, size, fuse=LARGEST):
    return take_clump(image, size, False, fuse)


# "into the [..] entry, value, then target.  Any value.  The target must be valid
# now."  W4 says which entry: "after the last used one".  The target asked for has no
# mark in it: bit 0 is one of "a stored target" alone, so that an odd one isn't
# divisible by 8.
def add_entry(image, states, offset, target, stored, value, fuse):
    clumps = settled_clumps(image)
    clump = clump_with_body(clumps, offset)
    demand_state(clump, *states)
    entry = entry_after_the_last_used(clump)
    demand_valid_target(clumps, target)
    stores = [(entry.offset + 8, value), (entry.offset, stored)]
    return carry_out(image, stores, offset, fuse)


# "Onactive (RESERVED)"
@request
def onactive(image, offset, target, value, fuse=LARGEST):
    return add_entry(image, (RESERVED,), offset, target, target, value, fuse)


# "onfree (ACTIVE)".  W4: "Onfree always writes it and now takes RESERVED too."
@request
def onfree(image, offset, target, value, fuse=LARGEST):
    return add_entry(image, (RESERVED, ACTIVE), offset, target, marked(target), value, fuse)


# "Withdraw (RESERVED or ACTIVE): 0 to the last used target."  Marked or not: W4
# says nothing else of it.
@request
def withdraw(image, offset, fuse=LARGEST):
    clump = clump_with_body(settled_clumps(image), offset)
    demand_state(clump, RESERVED, ACTIVE)
    return carry_out(image, [(last_used_entry(clump).offset, 0)], offset, fuse)


# Recovery's part of it: "(assign, empty the list, ACTIVE)".  W4: "Activate, and
# recovery of an ACTIVATING clump, judge, carry out and empty the unmarked entries;
# marked ones wait".
def end_of_activation(clump):
    return (assignments(unmarked_entries(clump)) + emptying_of_unmarked(clump)
            + [state_store(clump, ACTIVE)])


# "Activate (RESERVED): every used target must be valid now, else 10.  State
# ACTIVATING; each value to its target, in list order; 0 to each used target
# word of the list, first to last; state ACTIVE."  W4: of "the unmarked entries".
@request
def activate(image, offset, fuse=LARGEST):
    clumps = settled_clumps(image)
    clump = clump_with_body(clumps, offset)
    demand_state(clump, RESERVED)
    demand_valid_targets(clumps, unmarked_entries(clump))
    stores = [state_store(clump, ACTIVATING)] + end_of_activation(clump)
    return carry_out(image, stores, offset, fuse)


# Recovery's part of it: "(assign, FREE)", of the onfree entries.  In a FREEING clump
# these are all the used ones, and on the way there from RESERVED the marked ones,
# since the others are emptied by then.
def end_of_freeing(clump):
    return assignments(onfree_entries(clump)) + [state_store(clump, FREE)]


# "if the next clump is FREE, nbytes = both; then, if the one before is FREE, its
# nbytes = all."
def join_stores(clumps, clump):
    at = clumps.index(clump)
    stores = []
    nbytes = clump.nbytes
    if at + 1 < len(clumps) and clumps[at + 1].state == FREE:
        nbytes += clumps[at + 1].nbytes
        stores.append((clump.offset, nbytes))
    if at > 0 and clumps[at - 1].state == FREE:
        stores.append((clumps[at - 1].offset, clumps[at - 1].nbytes + nbytes))
    return stores


# W4: "Free of a RESERVED clump with no marked entry stays as in 01"
def is_dropped_by_free(clump):
    return clump.state == RESERVED and not marked_entries(clump)


# What free stores before the clump is FREEING.  W4, of a RESERVED clump: "empties
# the unmarked ones first to last and goes by FREEING".  Those of an ACTIVE clump
# count as onfree's, and stay.
def stores_before_freeing(clump):
    if clump.state == RESERVED:
        return emptying_of_unmarked(clump)
    return []


# "Free: RESERVED: state FREE, list dropped.  ACTIVE: every used target must be
# valid now, else 10; state FREEING; the assignments in order; state FREE.  Then
# [the joins]."  W4, of a RESERVED clump with marked entries: "it judges those,
# empties the unmarked ones first to last and goes by FREEING".
@request
def free(image, offset, fuse=LARGEST):
    clumps = settled_clumps(image)
    clump = clump_with_body(clumps, offset)
    demand_state(clump, RESERVED, ACTIVE)
    if is_dropped_by_free(clump):
        stores = [state_store(clump, FREE)]
    else:
        demand_valid_targets(clumps, onfree_entries(clump))
        stores = (stores_before_freeing(clump) + [state_store(clump, FREEING)]
                  + end_of_freeing(clump))
    return carry_out(image, stores + join_stores(clumps, clump), offset, fuse)


# W6: "If the present body is enough": it has the bytes of the new body size.
def has_enough(clump, size):
    return clump.nbytes - HEADER_BYTES >= size


# W6: "if the next clump is FREE and both together reach the need, take it [..].  Else
# answer 5, exactly then."  The last clump has no next one.
def nbytes_with_next(clumps, clump, need):
    following = clumps[clumps.index(clump) + 1:]
    if not following or following[0].state != FREE:
        raise Refused(5)
    both = clump.nbytes + following[0].nbytes
    if both < need:
        raise Refused(5)
    return both


# W6: "take it, splitting off a rest by reserve's rule: the rest's header first, then one
# store of the grown nbytes."  Without a rest that one store is of both together.
def taking_stores(clump, both, need):
    if is_split_off(both - need):
        return rest_header(clump.offset + need, both - need) + [(clump.offset, need)]
    return [(clump.offset, both)]


# W6: "If the present body is enough, done with no store.  Otherwise [take the next
# clump]."  "The old body bytes stay; the added ones aren't cleared": no store is to
# either.  The need is reserve's, "in whole numbers, never wrapped".
def grow_stores(clumps, clump, size):
    if has_enough(clump, size):
        return []
    need = need_of(size)
    return taking_stores(clump, nbytes_with_next(clumps, clump, need), need)


# W6: "New request: a live clump (RESERVED or ACTIVE), a new body size."; "Size 0 is 4;
# here 6 and 7 are tested before 5."
@request
def grow(image, offset, size, fuse=LARGEST):
    clumps = settled_clumps(image)
    if size == 0:
        raise Refused(4)
    clump = clump_with_body(clumps, offset)
    demand_state(clump, RESERVED, ACTIVE)
    return carry_out(image, grow_stores(clumps, clump, size), offset, fuse)


# "finish the ACTIVATING clump (assign, empty the list, ACTIVE) or the FREEING
# one (assign, FREE)"
def finishing_stores(clumps):
    for clump in clumps:
        if clump.state == ACTIVATING:
            return end_of_activation(clump)
        if clump.state == FREEING:
            return end_of_freeing(clump)
    return []


# "then each RESERVED to FREE, upward".  W4: "Recovery of a RESERVED clump still
# carries out nothing."
def dropping_stores(clumps):
    return [state_store(clump, FREE) for clump in clumps if clump.state == RESERVED]


# "finish [..] the FREEING one (assign, FREE); then each RESERVED to FREE": what
# is FREE by the time that the runs are joined.
def is_free_in_the_end(clump):
    return clump.state in (FREE, RESERVED, FREEING)


# "run of touching FREE clumps": each as its list of clumps, two at the least,
# since one clump alone touches none.
def free_runs(clumps):
    runs = [[]]
    for clump in clumps:
        if is_free_in_the_end(clump):
            runs[-1].append(clump)
        else:
            runs.append([])
    return [run for run in runs if len(run) >= 2]


# "then, upward, one store for each run of touching FREE clumps, their sum to the
# nbytes of its first."
def joining_stores(clumps):
    return [(run[0].offset, sum(clump.nbytes for clump in run))
            for run in free_runs(clumps)]


# "Recover: finish [..]; then each RESERVED to FREE, upward; then, upward, one
# store for each run of touching FREE clumps"
@request
def recover(image, fuse=LARGEST):
    clumps = sound_clumps(image)
    stores = finishing_stores(clumps) + dropping_stores(clumps) + joining_stores(clumps)
    return carry_out(image, stores, 0, fuse)


# "used entries", each with its place, since the place of the last one says where a
# new entry goes (W4: "after the last used one"); its mark, its target, its value.
def entry_reading(entry):
    return entry.offset, is_marked(entry), target_of(entry), entry.value


# "The pool's reading: sizes and states along the walk, used entries of RESERVED
# and ACTIVE clumps, the static area, bodies that aren't FREE."
def reading(image):
    clumps = sound_clumps(image)
    sizes_and_states = [(clump.nbytes, clump.state) for clump in clumps]
    lists = [(clump.offset, [entry_reading(entry) for entry in used_entries(clump)])
             for clump in clumps if clump.state in (RESERVED, ACTIVE)]
    bodies = [(clump.offset, bytes(image[body_of(clump):end_of(clump)]))
              for clump in clumps if clump.state != FREE]
    return sizes_and_states, lists, bytes(image[STATIC:STATIC_END]), bodies


# The requests of which a cut, wherever it falls, "equals that of recovering the
# image before the request".  W5, of reserve: "After a cut and recovery it still reads
# as not asked."
UNDONE_BY_A_CUT = ("reserve", "reserve_uncleared", "onactive", "onfree", "withdraw",
                   "recover")


# At which store, counted from 1, a cut turns from reading as not asked to reading as
# finished; 0 if it never does.  For a request that the image accepts, not create.
# "It equals that of recovering the finished image if one or more stores of activate
# or free were made": the first.  W4, of a RESERVED clump with a marked entry: "Cut
# before the FREEING store, it reads as not asked": that store.  W6, of grow: "Cut before
# the nbytes store, it reads as not asked": that store, the last one.
def turning_store(image, name, numbers):
    if name in UNDONE_BY_A_CUT:
        return 0
    clumps = settled_clumps(image)
    clump = clump_with_body(clumps, numbers[0])
    if name == "grow":
        return len(grow_stores(clumps, clump, numbers[1]))
    if name == "activate" or is_dropped_by_free(clump):
        return 1
    return len(stores_before_freeing(clump)) + 1


# "After a cut and recovery, the reading equals that of recovering the image before
# the request [..].  It equals that of recovering the finished image [..]": whether
# it is the finished one after so many stores.
def reads_as_finished(image, name, numbers, stores):
    turn = turning_store(image, name, numbers)
    return turn != 0 and stores >= turn


# "create, reserve, onactive, onfree, withdraw, activate, free, check, recover":
# the nine requests by name, W5's "second form" and W6's "new request", with how many
# numbers each takes.
NUMBERS_TAKEN = {
    "create": 0, "reserve": 1, "onactive": 3, "onfree": 3, "withdraw": 1,
    "activate": 1, "free": 1, "check": 0, "recover": 0, "reserve_uncleared": 1,
    "grow": 2,
}

CARRIED_OUT_BY = {
    "create": create, "reserve": reserve, "onactive": onactive, "onfree": onfree,
    "withdraw": withdraw, "activate": activate, "free": free, "recover": recover,
    "reserve_uncleared": reserve_uncleared, "grow": grow,
}


# "A library over one lent byte slice, the pool image, with these requests".
# Check carries no fuse, since it makes no store.
def ask(image, name, numbers, fuse=LARGEST):
    if name == "check":
        return check(image)[0]
    return CARRIED_OUT_BY[name](image, *numbers, fuse=fuse)
