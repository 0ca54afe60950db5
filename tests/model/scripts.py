"""The scripts of the line protocol: a name that says what is tried, and its input.

The output of each is the model's.  The first body of a fresh pool is at 16448.
"""


# Lines of a script, each ended by a newline.
def lines(*texts):
    return b"".join(text.encode() + b"\n" for text in texts)


def raw(*texts):
    """The same for lines that are bytes already."""
    return b"".join(text + b"\n" for text in texts)


LARGEST = 18446744073709551615

SCRIPTS = {}

# ---------------------------------------------------------------------------
# Room
# ---------------------------------------------------------------------------

# Document 01's whole case: W5 of document 02 has it print 135 where it printed 7.
SCRIPTS["whole-case"] = lines("reserve 1000", "activate 16448", "walk")

# The same in the form of reserve that doesn't clear the body: it prints 7.
SCRIPTS["whole-case-uncleared"] = lines("reserve_uncleared 1000", "activate 16448", "walk")

SCRIPTS["empty-input"] = b""

SCRIPTS["walk-of-a-fresh-pool"] = lines("walk")

# Holes of several sizes: the first that fits is taken, not the best.
SCRIPTS["fragmentation-and-first-fit"] = lines(
    "reserve 64", "reserve 448", "reserve 64", "reserve 192", "reserve 64", "reserve 960",
    "reserve 64", "walk", "free 16576", "free 17216", "free 17600", "walk",
    "reserve 100", "reserve 900", "reserve 192", "reserve 1", "reserve 128", "walk",
    "free 16448", "free 16576", "walk", "recover", "walk")

# The hole is just what is asked for; then the pool itself.
SCRIPTS["exact-fits"] = lines(
    "reserve 192", "reserve 64", "activate 16704", "free 16448", "reserve 192", "walk",
    "free 16448", "reserve 129", "walk", "reserve 15936", "walk", "reserve 1", "recover",
    "walk")

SCRIPTS["whole-pool-in-one"] = lines(
    "reserve 16321", "reserve 16320", "walk", "reserve 1", "activate 16448", "walk",
    "free 16448", "walk", "reserve 16257", "walk")

# A rest of 64 is taken along, a rest of 128 is split off.
SCRIPTS["rest-64-is-taken-along"] = lines(
    "reserve 256", "reserve 64", "free 16448", "reserve 192", "walk", "free 16448", "walk")
SCRIPTS["rest-128-is-split-off"] = lines(
    "reserve 256", "reserve 64", "free 16448", "reserve 128", "walk", "reserve 64", "walk")
SCRIPTS["rests-at-the-end-of-the-pool"] = lines(
    "reserve 16128", "walk", "free 16448", "reserve 16192", "walk", "free 16448",
    "reserve 16256", "walk")

SCRIPTS["sizes-round-64"] = lines(
    *("reserve %d" % (64 * count + more) for count in (1, 2, 3, 16) for more in (-1, 0, 1)),
    "walk")

SCRIPTS["no-room"] = lines(
    "reserve 0", "reserve 16321", "reserve 16384", "reserve 32768", "reserve 16000",
    "reserve 257", "reserve 256", "reserve 1", "walk")

SCRIPTS["walk-of-many-clumps"] = lines(
    *["reserve 1"] * 129, "walk",
    *("free %d" % (16448 + 256 * at) for at in range(64)), "walk",
    *("activate %d" % (16576 + 256 * at) for at in range(64)), "recover", "walk")

SCRIPTS["neighbours-are-joined"] = lines(
    *["reserve 64"] * 6, "activate 16576", "activate 16832", "free 16576", "free 16448",
    "walk", "free 16832", "walk", "free 16704", "walk", "free 17088", "free 16960", "walk")

# ---------------------------------------------------------------------------
# Lists and targets
# ---------------------------------------------------------------------------

SCRIPTS["list-full"] = lines(
    "reserve 64", "onactive 16448 4096 1", "onactive 16448 4096 2", "onactive 16448 4104 3",
    "onactive 16448 4112 4", "onactive 16448 8192 4", "activate 16448",
    "onfree 16448 4096 5", "onfree 16448 4104 6", "onfree 16448 16448 7",
    "onfree 16448 4112 8", "free 16448", "walk")

SCRIPTS["withdraw"] = lines(
    "reserve 64", "withdraw 16448", "onactive 16448 4096 1", "withdraw 16448",
    "withdraw 16448", "onactive 16448 4096 1", "onactive 16448 4104 2",
    "onactive 16448 4112 3", "withdraw 16448", "onactive 16448 8184 4", "withdraw 16448",
    "withdraw 16448", "activate 16448", "withdraw 16448", "onfree 16448 4096 9",
    "withdraw 16448", "free 16448", "withdraw 16448", "withdraw 16449")

SCRIPTS["targets-of-the-static-area"] = lines(
    "reserve 64", "onactive 16448 4095 1", "onactive 16448 4088 1", "onactive 16448 4096 1",
    "onactive 16448 8184 1", "onactive 16448 8185 1", "onactive 16448 8188 1",
    "onactive 16448 8192 1", "onactive 16448 4100 1", "onactive 16448 0 1",
    "activate 16448", "onfree 16448 8192 1", "onfree 16448 8184 1", "free 16448")

SCRIPTS["targets-at-headers"] = lines(
    "reserve 64", "reserve 64", "onactive 16448 16384 1", "onactive 16448 16392 1",
    "onactive 16448 16440 1", "onactive 16448 16512 1", "onactive 16448 16568 1",
    "onactive 16448 12288 1", "onactive 16448 16376 1", "walk")

SCRIPTS["target-at-last-word-of-a-body"] = lines(
    "reserve 64", "reserve 100", "onactive 16448 16504 1", "onactive 16448 16696 2",
    "onactive 16448 16704 3", "onactive 16448 16568 3", "activate 16448",
    "onfree 16448 16696 4", "onfree 16448 16512 4", "free 16448", "walk")

SCRIPTS["target-at-last-word-of-the-image"] = lines(
    "reserve 64", "onactive 16448 32760 1", "reserve 16192", "onactive 16448 32760 1",
    "onactive 16448 32768 1", "onactive 16448 32764 1", "activate 16448", "walk")

SCRIPTS["target-in-its-own-body"] = lines(
    "reserve 200", "onactive 16448 16448 5", "onactive 16448 16640 6",
    "onactive 16448 16696 7", "activate 16448", "onfree 16448 16448 8", "free 16448", "walk")

SCRIPTS["target-in-a-freed-body"] = lines(
    "reserve 64", "reserve 64", "activate 16576", "onactive 16448 16576 5", "free 16576",
    "activate 16448", "walk", "withdraw 16448", "activate 16448", "walk")

SCRIPTS["free-with-a-target-in-a-freed-body"] = lines(
    "reserve 64", "reserve 64", "activate 16448", "activate 16576", "onfree 16448 16576 5",
    "free 16576", "free 16448", "reserve 64", "free 16448", "walk")

# A RESERVED clump with no onfree entry drops its list, valid or not.
SCRIPTS["free-of-reserved-drops-its-list"] = lines(
    "reserve 64", "reserve 64", "onactive 16448 16576 5", "free 16576", "activate 16448",
    "free 16448", "walk")

# FREE allows none of them, ACTIVE neither activate nor onactive; RESERVED allows all.
SCRIPTS["states-that-do-not-allow-it"] = lines(
    "activate 16448", "free 16448", "onactive 16448 4096 1", "onfree 16448 4096 1",
    "withdraw 16448", "reserve 64", "activate 16448", "activate 16448",
    "onactive 16448 4096 1", "free 16448", "free 16448")

SCRIPTS["no-clump-at-that-offset"] = lines(
    "reserve 64", "activate 16384", "activate 16447", "activate 16449", "activate 16456",
    "activate 16512", "activate 0", "activate 64", "activate 63", "free 32768",
    "withdraw 4096", "onactive 16576 4096 1", "onactive 16575 1 1", "onfree 1 1 1",
    "activate %d" % LARGEST, "free %d" % (LARGEST - 63), "walk")

# ---------------------------------------------------------------------------
# Onfree before activation (W4 of document 02)
# ---------------------------------------------------------------------------

# A record that is to be linked when it is activated and unlinked when it is freed,
# both asked for while it is RESERVED.  The activation makes 4 stores, for the one
# onactive entry; the onfree entry waits in its place, and the freeing makes 3 and the
# join.  Then the same record is given up before it is activated: its onactive entry
# is emptied and its onfree entry carried out, 4 stores and the join.
SCRIPTS["onfree-before-activation"] = lines(
    "reserve 64", "onactive 16448 4096 16448", "onfree 16448 4096 0", "activate 16448",
    "walk", "free 16448", "walk",
    "reserve 64", "onactive 16448 4096 16448", "onfree 16448 4096 0", "free 16448", "walk")

# Onfree only, on RESERVED: activation has nothing to carry out, nor has recovery.
SCRIPTS["onfree-before-activation-alone"] = lines(
    "reserve 64", "onfree 16448 4096 1", "onfree 16448 4104 2", "onfree 16448 4112 3",
    "onfree 16448 4120 4", "onactive 16448 4120 4", "activate 16448", "onfree 16448 4120 4",
    "onactive 16448 4120 4", "free 16448", "walk",
    "reserve 64", "onfree 16448 4096 1", "recover", "walk", "free 16448")

# The number asked for is the target, without a mark: an odd one isn't valid.
SCRIPTS["onfree-with-odd-targets"] = lines(
    "reserve 64", "onfree 16448 4097 1", "onfree 16448 1 1", "onfree 16448 0 1",
    "onfree 16448 8185 1", "onfree 16448 16449 1", "onactive 16448 4097 1",
    "onfree 16448 4096 1", "onfree 16448 8184 1", "onfree 16448 16504 1", "activate 16448",
    "free 16448", "reserve 64", "activate 16448", "onfree 16448 4097 1",
    "onfree 16448 4096 1", "walk")

# Free of a RESERVED clump judges its onfree entries and no others; activate the
# onactive entries and no others; free of an ACTIVE clump what is left.  16576 is the
# body of the clump that is freed in between.
SCRIPTS["onfree-with-a-target-in-a-freed-body"] = lines(
    "reserve 64", "reserve 64", "onfree 16448 16576 5", "onactive 16448 4096 6",
    "free 16576", "free 16448", "activate 16448", "free 16448", "withdraw 16448",
    "free 16448", "walk",
    "reserve 64", "reserve 64", "onactive 16448 16576 5", "onfree 16448 4096 6",
    "free 16576", "activate 16448", "free 16448", "walk")

# An activation leaves an onfree entry at the third place, with gaps before it: the
# list is full, until that entry is withdrawn; then all three places are free.
SCRIPTS["list-full-with-gaps"] = lines(
    "reserve 64", "onactive 16448 4096 1", "onactive 16448 4104 2", "onfree 16448 4112 3",
    "activate 16448", "onfree 16448 4120 4", "onfree 16448 8192 4", "withdraw 16448",
    "withdraw 16448", "onfree 16448 4096 1", "onfree 16448 4104 2", "onfree 16448 4112 3",
    "onfree 16448 4120 4", "free 16448", "walk")

# The same with the entry at the second place: one more has room behind it, none in
# the gap before it; withdraw takes the last one first.
SCRIPTS["list-with-a-gap"] = lines(
    "reserve 64", "onactive 16448 4096 1", "onfree 16448 4104 2", "onactive 16448 4112 3",
    "withdraw 16448", "activate 16448", "onfree 16448 4120 4", "onfree 16448 4128 5",
    "withdraw 16448", "onfree 16448 4120 4", "withdraw 16448", "withdraw 16448",
    "withdraw 16448", "free 16448", "walk")


# Every list that the requests make on a RESERVED clump: none to three entries, each
# of onactive (a) or of onfree (f).
RESERVED_LISTS = ("", "a", "f", "aa", "af", "fa", "ff",
                  "aaa", "aaf", "afa", "aff", "faa", "faf", "ffa", "fff")


# The lines that make such a list on the clump with its body at the offset.
def listing(letters, offset):
    names = {"a": "onactive", "f": "onfree"}
    return ["%s %d %d %d" % (names[letter], offset, 4096 + 8 * at, 11 + at)
            for at, letter in enumerate(letters)]


# How many stores the free of such a clump makes between FREE neighbours: with an
# onfree entry one for each entry and the states FREEING and FREE, else FREE alone;
# and two joins.
def freeing_stores(letters):
    return len(letters) + 4 if "f" in letters else 3


# Free of a RESERVED clump with each list, between FREE neighbours, at every cut and
# uncut; then recovery and walk.
SCRIPTS["recovery-of-a-freeing-of-reserved-at-every-cut"] = lines(*(
    line for letters in RESERVED_LISTS for fuse in range(freeing_stores(letters) + 1)
    for line in
    ("reserve 64", "reserve 64", "reserve 64", "free 16448", "free 16704",
     *listing(letters, 16576), "fuse %d" % fuse, "free 16576", "walk", "recover", "walk")))

# Activation of each list with an onfree entry, at every cut and uncut; recovery; then
# withdraw shows whether an entry waited, and the free carries out the rest.
SCRIPTS["recovery-of-an-activation-with-onfree-at-every-cut"] = lines(*(
    line for letters in RESERVED_LISTS if "f" in letters
    for fuse in range(2 * letters.count("a") + 3) for line in
    ("reserve 64", *listing(letters, 16448), "fuse %d" % fuse, "activate 16448", "walk",
     "recover", "walk", "onfree 16448 8184 9", "withdraw 16448", "free 16448", "walk")))

# A free that is cut before the clump is FREEING leaves it RESERVED, with gaps in its
# list where the onactive entries were emptied; the pool is settled, and what is asked
# next goes on from there.
SCRIPTS["freeing-of-reserved-cut-and-asked-again"] = lines(*(
    line for fuse in (0, 1, 2) for asked in
    ("free 16448", "activate 16448", "withdraw 16448", "onfree 16448 4120 4",
     "onactive 16448 4120 4", "reserve 64") for line in
    ("reserve 64", *listing("afa", 16448), "fuse %d" % fuse, "free 16448", "walk", asked,
     "free 16448", "walk", "recover", "free 16448", "walk")))

# ---------------------------------------------------------------------------
# Reserved bodies come cleared (W5 of document 02)
# ---------------------------------------------------------------------------

# The technician's record, at 16448: its valve (16480) and its position (16488) are set
# when it is activated.  It is freed, and reserved again in the second form: the old valve
# and position stand there still.  It is freed once more, and reserved in the first form:
# it reads 0, for 8 more stores.  No line prints a byte of a body: the stores tell, and
# the model's tests look.
SCRIPTS["old-valve-position"] = lines(
    "reserve 64", "onactive 16448 16480 3", "onactive 16448 16488 77", "activate 16448",
    "free 16448", "reserve_uncleared 64", "activate 16448", "free 16448",
    "reserve 64", "activate 16448", "walk")

# A reserve is cut in the middle of its zeros: 6 stores and 4 of 8 zeros.  Nothing else is
# granted until it is recovered; then it is reserved again, and is whole.
SCRIPTS["reserve-cut-in-its-zeros"] = lines(
    "reserve 64", "onactive 16448 16448 1", "onactive 16448 16472 2", "onactive 16448 16504 3",
    "activate 16448", "free 16448", "fuse 10", "reserve 64", "walk", "reserve 64",
    "reserve_uncleared 64", "free 16448", "recover", "walk", "reserve 64", "activate 16448",
    "walk")

# Both forms by turns: the same tests, answers and places.
SCRIPTS["reserve-uncleared"] = lines(
    "reserve_uncleared 64", "reserve 64", "reserve_uncleared 65", "reserve 65",
    "reserve_uncleared 0", "reserve 0", "reserve_uncleared 5", "reserve 5",
    "reserve_uncleared 16320", "reserve 16320", "reserve_uncleared %d" % LARGEST,
    "reserve %d" % LARGEST, "onactive 16448 4096 1", "activate 16448", "walk",
    "free 16448", "reserve_uncleared 1", "free 16448", "reserve 1", "free 16448", "fuse 1",
    "free 16576", "walk", "reserve_uncleared 1", "reserve 1", "reserve_uncleared 0",
    "recover", "reserve_uncleared 64", "fuse 1", "activate 16448", "walk",
    "reserve_uncleared 1", "reserve_uncleared 0", "recover", "walk",
    "reserve_uncleared 16193", "reserve_uncleared 16192", "walk")

# Lines that aren't requests, beside its name; its number missing, one too many, out of
# range, with something behind it.
SCRIPTS["bad-lines-reserve-uncleared"] = raw(
    b"reserve_uncleared", b"reserve_uncleared ", b"reserve_uncleared 64 64",
    b"reserve_uncleared 64 ", b"reserve_uncleared  64", b" reserve_uncleared 64",
    b"reserve_uncleared\t64", b"reserve_uncleared 64\r", b"reserve_uncleared 64\0",
    b"reserve_uncleared 64x", b"reserve_uncleared 64;", b"reserve_uncleared +64",
    b"reserve_uncleared -64", b"reserve_uncleared 0x40", b"reserve_uncleared 1e3",
    b"reserve_uncleared x", b"reserve_uncleared 18446744073709551616",
    b"reserve_uncleared 18446744073709551680", b"reserve_uncleared 99999999999999999999",
    b"reserve uncleared 64", b"reserve uncleared", b"reserve-uncleared 64",
    b"reserveuncleared 64", b"reserve_ 64", b"reserve_unclear 64", b"reserve_uncleare 64",
    b"reserve_uncleareds 64", b"reserve_uncleared64", b"reserve__uncleared 64",
    b"Reserve_uncleared 64", b"RESERVE_UNCLEARED 64", b"reserve_Uncleared 64",
    b"uncleared 64", b"_uncleared 64", b"64 reserve_uncleared", b"reserve_cleared 64",
    b"reserve_uncleared walk", b"walk", b"reserve_uncleared 064",
    b"reserve_uncleared " + b"64".zfill(182), b"reserve_uncleared " + b"64".zfill(183),
    b"reserve_uncleared " + b"18446744073709551615".zfill(182), b"walk",
    b"fuse 6", b"reserve_uncleared", b"reserve_uncleared 64x", b"reserve_uncleared 64",
    b"walk")

# ---------------------------------------------------------------------------
# Grow a record where it stands (W6 of document 02)
# ---------------------------------------------------------------------------

# A record has enough already, and nothing is stored; it grows by a unit and by many, 3
# stores each, RESERVED and ACTIVE.  Asked for less, it doesn't shrink.
SCRIPTS["grow"] = lines(
    "reserve 64", "grow 16448 64", "grow 16448 1", "walk", "grow 16448 65", "walk",
    "grow 16448 128", "grow 16448 100", "grow 16448 1000", "walk", "activate 16448",
    "grow 16448 1024", "grow 16448 1025", "walk", "grow 16448 64", "walk")

# A burner's log, ACTIVE: its activation sets its first word and its last, and its freeing
# will set 4096.  It grows three times.  The second time the power fails before the size
# is stored, with the rest's header written: once recovered it is as it was, and it grows
# again.  The third time the power fails twice, before the first store and behind it.  Its
# body stays where it is with its old words, and its list with it: the free makes FREEING,
# one assignment, FREE and the join.
SCRIPTS["grow-three-times"] = lines(
    "reserve 64", "onfree 16448 4096 5", "onactive 16448 16448 7", "onactive 16448 16504 9",
    "activate 16448", "walk", "grow 16448 100", "walk",
    "fuse 2", "grow 16448 500", "walk", "recover", "walk", "grow 16448 500", "walk",
    "fuse 0", "grow 16448 2000", "fuse 1", "grow 16448 2000", "walk", "recover", "walk",
    "grow 16448 2000", "walk", "free 16448", "walk")

# The record behind it had a word set (16584), and was freed: the grown body covers it,
# header and all, and isn't cleared.  No line prints that word: the model's tests look.
SCRIPTS["grow-over-old-bytes"] = lines(
    "reserve 64", "reserve 64", "onactive 16576 16584 77", "activate 16576", "free 16576",
    "activate 16448", "grow 16448 200", "walk")

# A hole of 256 behind a record of 128: one byte too many; all of it, with no rest or one
# of 64, one store; rests of 128 and of 192 are split off, 3 stores; enough already.
SCRIPTS["grow-rests"] = lines(*(
    line for size in (321, 320, 257, 256, 193, 192, 129, 128, 65, 64) for line in
    ("reserve 64", "reserve 192", "reserve 64", "free 16576", "grow 16448 %d" % size, "walk",
     "recover")))

# The same at the end of the pool, and what is left to be reserved.
SCRIPTS["grow-to-the-end-of-the-pool"] = lines(*(
    line for size in (16321, 16320, 16256, 16193, 16192, 16128) for line in
    ("reserve 64", "activate 16448", "grow 16448 %d" % size, "walk",
     "reserve_uncleared 64", "free 16448", "recover", "walk")))

# Each refusal, where others would hold too: 4 before 6 and 7; 6 and 7 before 5; 5.
SCRIPTS["grow-refused"] = lines(
    "grow 16448 0", "grow 16448 64", "grow 16448 %d" % LARGEST, "grow 16449 0", "grow 0 0",
    "grow 16384 64", "grow 16449 64", "grow 16456 64", "grow 16512 %d" % LARGEST, "grow 0 64",
    "grow 64 64", "grow 4096 1", "grow 32768 64", "grow %d 1" % LARGEST,
    "grow %d 16321" % (LARGEST - 63), "grow 16385 16321",
    "reserve 64", "grow 16448 0", "grow 16448 16321", "grow 16576 1", "grow 16576 16321",
    "grow 16512 64", "fuse 0", "grow 16448 0", "fuse 0", "grow 16448 64", "grow 16448 65",
    "walk")

# Answer 5 while the next clump is RESERVED, or ACTIVE, or FREE and 64 too small; a FREE
# clump before the record isn't taken.  The last clump of the pool has no next one.
SCRIPTS["grow-and-the-next-clump"] = lines(
    "reserve 64", "reserve 64", "reserve 64", "activate 16704", "grow 16448 65",
    "activate 16576", "grow 16448 65", "free 16576", "grow 16448 193", "grow 16448 192", "walk",
    "free 16448", "grow 16704 16065", "grow 16704 16064", "walk", "grow 16704 16065",
    "free 16704", "walk", "reserve_uncleared 16320", "grow 16448 16320", "grow 16448 16321")

# An unfinished pool, and one in which two FREE clumps touch, grant no grow: 3 comes first.
SCRIPTS["grow-in-an-unsettled-pool"] = lines(
    "reserve 64", "reserve 64", "fuse 1", "activate 16448", "grow 16448 1", "grow 16448 65",
    "grow 16576 65", "grow 16576 0", "grow 1 1", "recover", "grow 16448 65", "walk",
    "fuse 1", "free 16448", "grow 16448 1", "grow 16448 0", "recover", "reserve 64",
    "reserve 64", "fuse 1", "free 16576", "walk", "grow 16448 65", "grow 16448 64",
    "recover", "grow 16448 65")

# A record of which the free place behind it moves when it grows: reserve finds the first
# that fits, in what is left of the hole, and then behind.
SCRIPTS["grow-and-first-fit"] = lines(
    "reserve 64", "reserve 448", "reserve 64", "activate 16448", "activate 17088", "free 16576",
    "walk", "grow 16448 300", "walk", "reserve 193", "reserve 192", "walk", "grow 16448 321",
    "free 16832", "grow 16448 321", "walk", "reserve 64", "reserve 64", "walk")

# Records that grew are freed, and joined with what is FREE beside them: with the rest
# behind, with the record before, with both.
SCRIPTS["grow-and-free"] = lines(
    "reserve 64", "reserve 64", "activate 16448", "activate 16576", "grow 16576 500", "walk",
    "free 16576", "walk", "grow 16448 1000", "walk", "free 16448", "walk",
    "reserve 64", "reserve 64", "free 16448", "grow 16576 1000", "walk", "grow 16576 16192",
    "walk", "free 16576", "walk")

# Targets behind a record: in a header (16640) and in a FREE body (16704, 16824) they aren't
# valid; once it has grown over them they are, and 16832 is the rest's header.
SCRIPTS["grow-over-targets"] = lines(
    "reserve 64", "reserve 64", "onactive 16448 16640 1", "onactive 16448 16704 2",
    "onactive 16448 16824 3", "grow 16576 256", "walk", "onactive 16448 16640 1",
    "onactive 16448 16704 2", "onactive 16448 16832 3", "onactive 16448 16824 3",
    "activate 16448", "onfree 16448 16824 4", "free 16576", "free 16448", "walk")

# Sizes whose rounding or header would wrap: no room, whatever is behind the record.
SCRIPTS["grow-by-the-largest-number"] = lines(
    "reserve 64", *("grow 16448 %d" % size for size in (
        LARGEST, LARGEST - 62, LARGEST - 63, LARGEST - 64, LARGEST - 126, LARGEST - 127,
        LARGEST - 128, LARGEST - 16383, LARGEST - 16447, 2**63, 2**63 - 1, 2**32, 2**32 + 65)),
    "grow %d %d" % (LARGEST, LARGEST), "grow %d 65" % (2**32 + 16448), "activate 16448",
    "grow 16448 %d" % LARGEST, "fuse %d" % LARGEST, "grow 16448 65", "walk")

# Lines that aren't requests, beside its name; a number missing, one too many, above 64
# bits, with a sign, with something behind it.
SCRIPTS["bad-lines-grow"] = raw(
    b"reserve 64", b"grow", b"grow ", b"grow 16448", b"grow 16448 ", b"grow  16448 65",
    b"grow 16448  65", b" grow 16448 65", b"grow 16448 65 ", b"grow 16448 65 0",
    b"grow 16448 65 4096 1", b"grow\t16448 65", b"grow 16448\t65", b"grow 16448 65\r",
    b"grow 16448 65\0", b"grow 16448,65", b"grow 16448 65x", b"grow 16448 0x41",
    b"grow 0x4040 65", b"grow 16448 6e1", b"grow +16448 65", b"grow 16448 +65",
    b"grow -16448 65", b"grow 16448 -65", b"grow 16448 -0", b"grow x 65", b"grow 16448 x",
    b"grow 16448 18446744073709551616", b"grow 18446744073709551616 65",
    b"grow 18446744073709568064 65", b"grow 16448 18446744073709551681",
    b"grow 16448 99999999999999999999", b"Grow 16448 65", b"GROW 16448 65", b"gro 16448 65",
    b"grows 16448 65", b"grown 16448 65", b"grow16448 65", b"grow_ 16448 65", b"g 16448 65",
    b"16448 65 grow", b"grow 16448 walk", b"grow walk 65", b"walk", b"fuse 1", b"grow 16448",
    b"grow 16448 65 65", b"grow 16448 65", b"walk", b"grow 016448 00065",
    b"grow 16448 " + b"129".zfill(189), b"grow 16448 " + b"193".zfill(190),
    b"grow " + b"16448".zfill(191) + b" 193", b"grow " + b"16448".zfill(192) + b" 257",
    b"grow 16448 " + b"18446744073709551615".zfill(189), b"walk")

# ---------------------------------------------------------------------------
# Fuses
# ---------------------------------------------------------------------------

SCRIPTS["fuse-zero"] = lines(
    "fuse 0", "reserve 64", "walk", "reserve 64", "fuse 0", "onactive 16448 4096 1",
    "fuse 0", "activate 16448", "walk", "fuse 0", "free 16448", "walk", "fuse 0", "recover",
    "walk", "recover", "fuse 0", "recover", "walk")

# Reserve makes 7 stores where it splits, or 4, and one for each 8 bytes of the body.
SCRIPTS["fuse-exact"] = lines(
    "fuse %d" % (7 + 64 // 8), "reserve 64", "fuse 2", "onactive 16448 4096 1", "fuse 4",
    "activate 16448", "fuse 2", "onfree 16448 4096 1", "fuse 1", "withdraw 16448",
    "fuse 3", "free 16448", "fuse %d" % (7 + 16192 // 8), "reserve 16192",
    "fuse %d" % (4 + 64 // 8), "reserve 64", "fuse 3", "recover", "walk")

SCRIPTS["fuse-exact-uncleared"] = lines(
    "fuse 7", "reserve_uncleared 64", "free 16448", "fuse 7", "reserve_uncleared 16192",
    "fuse 4", "reserve_uncleared 64", "fuse 3", "recover", "walk")

SCRIPTS["fuse-one-short"] = lines(
    "fuse %d" % (6 + 64 // 8), "reserve 64", "walk", "reserve 64", "recover", "walk",
    "reserve 64", "fuse 1", "onactive 16448 4096 1", "onactive 16448 4096 1", "fuse 0",
    "withdraw 16448", "fuse 3", "activate 16448", "walk", "recover", "walk", "fuse 2",
    "free 16448", "walk", "fuse 0", "recover", "recover", "walk")

SCRIPTS["fuse-one-short-uncleared"] = lines(
    "fuse 6", "reserve_uncleared 64", "walk", "reserve_uncleared 64", "recover", "walk",
    "reserve_uncleared 16192", "fuse 3", "reserve_uncleared 64", "walk",
    "reserve_uncleared 64", "walk")

SCRIPTS["fuse-doubled"] = lines(
    "fuse 0", "fuse 15", "reserve 64", "fuse 15", "fuse 0", "reserve 64", "fuse 1", "fuse 1",
    "fuse 2", "onactive 16448 4096 1", "walk")

SCRIPTS["fuse-before-walk"] = lines("fuse 3", "walk", "reserve 64", "walk", "reserve 64")

SCRIPTS["fuse-before-a-bad-line"] = lines(
    "fuse 3", "reserve", "resreve 64", "reserve 64 64", "", "reserve 64", "reserve 64", "walk")

SCRIPTS["fuse-used-up-by-a-refusal"] = lines(
    "fuse 0", "reserve 0", "reserve 64", "fuse 0", "free 1", "activate 16448", "fuse 0",
    "reserve 20000", "reserve 64", "fuse 0", "activate 16448", "free 16448", "walk")

# Some of the bad lines would have a fuse that is enough.
SCRIPTS["fuse-bad-line-leaves-the-earlier"] = lines(
    "fuse 2", "fuse", "fuse -1", "fuse 18446744073709551616", "fuse 15 15", "fuse x",
    "Fuse 15", "fuse  15", "reserve 64", "fuse x", "reserve 64", "walk")

SCRIPTS["fuse-at-the-end"] = lines("reserve 64", "fuse 0")

SCRIPTS["fuse-large"] = lines(
    "fuse 4294967296", "reserve 64", "fuse 4294967297", "reserve 64",
    "fuse 9223372036854775808", "reserve 64", "fuse %d" % LARGEST, "reserve 64", "walk")

# ---------------------------------------------------------------------------
# Lines that aren't requests
# ---------------------------------------------------------------------------

SCRIPTS["bad-lines-empty"] = b"\n\nreserve 64\n\nwalk\n\n"

SCRIPTS["bad-lines-spaces"] = raw(
    b" ", b"  ", b" reserve 64", b"reserve 64 ", b"reserve  64", b"reserve ", b" walk",
    b"walk ", b"recover ", b"onactive 16448  4096 1", b"onactive 16448 4096 1 ", b"fuse 0 ",
    b"reserve 64", b"walk")

SCRIPTS["bad-lines-tabs"] = raw(
    b"\t", b"reserve\t64", b"\treserve 64", b"reserve 64\t", b"walk\t", b"reserve \t64",
    b"reserve\x0b64", b"reserve\x0c64", b"walk")

SCRIPTS["bad-lines-carriage-returns"] = raw(
    b"reserve 64\r", b"walk\r", b"\r", b"\rwalk", b"fuse 0\r", b"recover\r",
    b"reserve 64\rreserve 64", b"reserve 64", b"walk")

SCRIPTS["bad-lines-names"] = lines(
    "?", "help", "reserv 64", "reserved 64", "reserve64", "64", "64 reserve", "free_ 16448",
    "persist 16448", "on 16448", "onactiv 16448 4096 1", "walks", "walkwalk", "fuse0", "fus 0",
    "recovery", "quit", "exit", "# walk", "reserve,64", "reserve 64;walk", "walk")

SCRIPTS["bad-lines-upper-case"] = lines(
    "RESERVE 64", "Reserve 64", "reservE 64", "WALK", "Walk", "Recover", "FUSE 0", "reserve 64",
    "ACTIVATE 16448", "walk")

SCRIPTS["bad-lines-create-and-check"] = lines(
    "create", "check", "create 32768", "check 0", "reserve 64", "create", "check", "walk")

SCRIPTS["bad-lines-too-few-or-too-many"] = lines(
    "reserve", "reserve 1 1", "onactive", "onactive 16448", "onactive 16448 4096",
    "onactive 16448 4096 1 1", "onfree 16448 4096", "onfree 1 2 3 4", "withdraw",
    "withdraw 1 1", "activate", "activate 16448 1", "free", "free 16448 0", "recover 0",
    "walk 0", "walk walk", "fuse", "fuse 1 1", "walk")

SCRIPTS["bad-lines-signs-and-letters"] = lines(
    "reserve +64", "reserve -64", "reserve -0", "reserve 0x40", "reserve 40h", "reserve 1e3",
    "reserve 64.0", "reserve 64,", "reserve 1_000", "reserve 1,000", "reserve '64'",
    "reserve x", "reserve 6a", "reserve a6", "onactive 16448 4096 -1", "onactive 16448 +4096 1",
    "reserve /", "reserve :", "reserve 1/", "reserve 1:", "fuse -1", "fuse +0", "walk")

SCRIPTS["bad-lines-above-64-bits"] = lines(
    "reserve 18446744073709551615", "reserve 18446744073709551616",
    "reserve 18446744073709551617", "reserve 18446744073709551680",
    "reserve 36893488147419103232", "reserve 99999999999999999999",
    "reserve 100000000000000000000", "reserve 340282366920938463463374607431768211520",
    "onactive 16448 4096 18446744073709551616", "onactive 18446744073709551616 4096 1",
    "onactive 16448 18446744073709551616 1", "fuse 18446744073709551616", "walk")

# Wrapped, these would be 64, 128 and 192: they are bad lines all the same.
SCRIPTS["bad-lines-that-wrap-to-small"] = lines(
    "reserve %d" % (2**64 + 64), "reserve %d" % (2**65 + 128), "reserve %d" % (2**128 + 192),
    "reserve %d" % (10 * 2**64 + 64), "fuse %d" % 2**64, "reserve 64", "walk")

SCRIPTS["leading-zeros"] = lines(
    "reserve 064", "reserve 00000000000000000000000000000000000000000000000065",
    "onactive 0016448 04096 00", "activate 000000000000000000016448", "fuse 00",
    "free 016448", "reserve 00", "reserve " + "0" * 100 + "18446744073709551615",
    "reserve " + "0" * 100 + "18446744073709551616", "walk")


# A reserve line of so many bytes, by leading zeros.
def reserve_line(length, size):
    return b"reserve " + str(size).zfill(length - len("reserve ")).encode()


SCRIPTS["lines-of-200-and-201-bytes"] = raw(
    reserve_line(199, 64), reserve_line(200, 64), reserve_line(201, 64),
    reserve_line(202, 64), reserve_line(200, 128), b"x" * 200, b"x" * 201, b" " * 200,
    b" " * 201, b"walk" + b" " * 196, b"walk" + b" " * 197, b"walk")

# A long line is one line: its tail isn't read as a request of its own.
SCRIPTS["lines-much-too-long"] = raw(
    b"x" * 400, reserve_line(401, 64), b"walk " * 60, b"x" * 200 + b"walk",
    b"x" * 201 + b"walk", b"0" * 4095, b"0" * 4096, b"0" * 4097, b"9" * 70000,
    b"reserve 64" + b" reserve 64" * 1000, b"walk")

SCRIPTS["last-line-without-newline"] = b"reserve 64\nwalk"
SCRIPTS["last-line-without-newline-alone"] = b"reserve 1000"
SCRIPTS["last-line-without-newline-bad"] = b"walk\nreserve 64\r"
SCRIPTS["last-line-without-newline-200-bytes"] = b"walk\n" + reserve_line(200, 64)
SCRIPTS["last-line-without-newline-201-bytes"] = b"walk\n" + reserve_line(201, 64)
SCRIPTS["last-line-without-newline-fuse"] = b"reserve 64\nfuse 0"

SCRIPTS["bytes-above-127"] = raw(
    b"\x80", b"\xff", b"reserve \xd9\xa1", b"reserve 6\xb4", b"reserve\xa064",
    b"reserve\xc2\xa064", "réserve 64".encode(), b"walk\xff", b"\xef\xbb\xbfwalk",
    "reserve ６４".encode(), b"r" + b"\xe5" * 199, b"r" + b"\xe5" * 200, b"walk")

SCRIPTS["nul-bytes"] = raw(
    b"\0", b"reserve 64\0", b"reserve\x0064", b"\0walk", b"walk\0", b"reserve 6\x004",
    b"fuse 0\0", b"reserve 64", b"walk")

# Requests over many buffers of input; every 7th line is bad, every 11th a fuse.
SCRIPTS["long-input"] = raw(*(
    b"reserve 64x" if at % 7 == 0 else b"fuse %d" % (at % 9) if at % 11 == 0
    else (b"reserve %d" % (at % 300 + 1), b"recover", b"activate 16448", b"free 16448",
          b"reserve %022d" % at, b"onfree 16448 4096 %d" % at)[at % 6]
    for at in range(1, 6001)), b"walk")

# ---------------------------------------------------------------------------
# Recovery
# ---------------------------------------------------------------------------

# A clump of 128 with three entries; its activation makes 8 stores.
LINKED = ("reserve 64", "onactive 16448 4096 16448", "onactive 16448 16448 7",
          "onactive 16448 4096 9")

# After each cut the pool is unfinished, recovered, and the clump freed again.
SCRIPTS["recovery-of-an-activation-at-every-cut"] = lines(*(
    line for fuse in range(10) for line in
    (*LINKED, "fuse %d" % fuse, "activate 16448", "walk", "reserve 1", "recover", "walk",
     "recover", "withdraw 16448", "free 16448", "recover", "walk")))

# Free of an ACTIVE clump with three entries between FREE neighbours: 7 stores.
SCRIPTS["recovery-of-a-freeing-at-every-cut"] = lines(*(
    line for fuse in range(9) for line in
    ("reserve 64", "reserve 128", "reserve 64", "activate 16576", "free 16448",
     "free 16768", "onfree 16576 4096 1", "onfree 16576 16576 2", "onfree 16576 4096 3",
     "walk", "fuse %d" % fuse, "free 16576", "walk", "reserve 1", "recover", "walk",
     "recover", "free 16576", "recover", "walk")))

# Reserve with a split, of one unit at every cut, uncut and with a store to spare; then
# of 16 units, cut before the zeros, after one, in their middle (6 and 64), before the
# last and behind it, uncut (7 and 128) and with a store to spare.
SCRIPTS["recovery-of-a-reserve-at-every-cut"] = lines(*(
    line for size, fuses in ((64, range(17)),
                             (1000, (0, 1, 2, 3, 4, 5, 6, 7, 70, 133, 134, 135, 136)))
    for fuse in fuses for line in
    ("fuse %d" % fuse, "reserve %d" % size, "walk", "reserve 1", "recover", "walk")))

SCRIPTS["recovery-of-an-uncleared-reserve-at-every-cut"] = lines(*(
    line for fuse in range(9) for line in
    ("fuse %d" % fuse, "reserve_uncleared 1000", "walk", "reserve_uncleared 1", "recover",
     "walk")))

# The same with no rest: 4 stores and 8 zeros.  Cut, it leaves nothing to recover, and
# the next reserve is granted without a recovery.
SCRIPTS["recovery-of-a-whole-reserve-at-every-cut"] = lines(
    "reserve 16192", "activate 16448", *(
        line for fuse in range(14) for line in
        ("fuse %d" % fuse, "reserve 64", "walk", "recover", "fuse %d" % fuse, "reserve 1",
         "reserve_uncleared 1", "recover", "walk")))

# Grow into a hole of 256, with a rest and with none, ACTIVE and RESERVED, at every cut,
# uncut and with a store to spare.  With a fuse of 0 grow says at once which it was: 0 if
# the record has enough, else 11.  Recovery drops what is RESERVED; the free carries out
# the list, which is the old one.
SCRIPTS["recovery-of-a-grow-at-every-cut"] = lines(*(
    line for size in (65, 320) for name in ("activate", "withdraw")
    for fuse in range(5 if size == 65 else 3) for line in
    ("reserve 64", "onfree 16448 4096 1", "onfree 16448 4104 2", "%s 16448" % name,
     "reserve 192", "reserve 64", "free 16576", "fuse %d" % fuse, "grow 16448 %d" % size, "walk",
     "fuse 0", "grow 16448 65", "recover", "walk", "free 16448", "walk")))

SCRIPTS["recovery-of-reserved-clumps"] = lines(
    "reserve 64", "reserve 128", "reserve 192", "activate 16576", "reserve 256", "walk",
    "recover", "walk", "recover", "activate 16448", "free 16576", "walk")

# A recovery that is itself cut, until it gets through.
SCRIPTS["recovery-cut-again-and-again"] = lines(
    "reserve 64", "reserve 64", "reserve 64", "activate 16576", "onfree 16576 4096 1",
    "onfree 16576 4104 2", "fuse 2", "free 16576", "walk",
    *(line for fuse in range(7) for line in ("fuse %d" % fuse, "recover", "walk")), "recover")

SCRIPTS["unfinished-pool-refuses"] = lines(
    "reserve 64", "fuse 1", "activate 16448", "walk", "reserve 0", "reserve 1",
    "onactive 16448 4096 1", "onfree 16448 4096 1", "withdraw 16448", "activate 16448",
    "free 16448", "activate 1", "walk", "recover", "withdraw 16448", "free 16448", "walk")

SCRIPTS["touching-free-clumps-refuse"] = lines(
    "reserve 64", "reserve 64", "fuse 1", "free 16448", "walk", "fuse 1", "free 16576", "walk",
    "reserve 1", "free 16448", "recover", "walk", "reserve 1")

# An offset from before a recovery may name a new clump.
SCRIPTS["offset-from-before-a-recovery"] = lines(
    "reserve 64", "recover", "activate 16448", "reserve 128", "activate 16448", "walk")

# ---------------------------------------------------------------------------
# Answers and large numbers
# ---------------------------------------------------------------------------

# The lower answer comes first where several tests hold.
SCRIPTS["lower-answer-first"] = lines(
    "reserve 64", "onactive 16448 4096 1", "onactive 16448 4096 1", "onactive 16448 4096 1",
    "onactive 16448 1 1", "onfree 16448 1 1", "onfree 16576 1 1", "onactive 16449 1 1",
    "withdraw 16576",
    "withdraw 16577", "activate 16576", "fuse 1", "free 16448", "onactive 16449 1 1",
    "reserve 0", "recover", "reserve 16320", "reserve 0", "walk")

SCRIPTS["the-largest-number"] = lines(
    "fuse %d" % LARGEST, "reserve %d" % LARGEST, "reserve %d" % (LARGEST - 62),
    "reserve %d" % (LARGEST - 63), "reserve %d" % (LARGEST - 126),
    "reserve %d" % (LARGEST - 127), "reserve 64", "onactive 16448 %d 1" % LARGEST,
    "onactive 16448 %d 1" % (LARGEST - 7), "onactive 16448 4096 %d" % LARGEST,
    "onactive %d %d %d" % (LARGEST, LARGEST, LARGEST), "withdraw %d" % LARGEST,
    "activate %d" % LARGEST, "free %d" % LARGEST, "activate 16448",
    "onfree 16448 16504 %d" % LARGEST, "free 16448", "walk")

# ---------------------------------------------------------------------------
# A story
# ---------------------------------------------------------------------------

# A gas kiln's controller keeps its valve commands in the pool.  The burner's
# present command (320 bytes) is in force and the static area points at it.  A
# new command is reserved and will be linked by three pointers: the static area's
# root (4096), the count of commands beside it (4104), and the old command's
# pointer to its follower (16448).  The power fails in the middle of the switch.
# The walk shows the command half in force; recovery puts it in force wholly.
# Then the old command is retired: its freeing sets the root's second word.
SCRIPTS["kiln"] = lines(
    "reserve 320", "onactive 16448 4096 16448", "onactive 16448 4104 1", "activate 16448",
    "walk",
    "reserve 200", "onactive 16832 4096 16832", "onactive 16832 4104 2",
    "onactive 16832 16448 16832", "walk",
    "fuse 3", "activate 16832", "walk",
    "recover", "walk",
    "onfree 16448 4104 1", "fuse 1", "free 16448", "walk",
    "recover", "walk", "recover")
