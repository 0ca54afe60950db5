/* Syrinthoa: a persistent-memory pool in one lent piece of memory. The library for C, x86-64.
 *
 * Every function takes any bytes, any numbers and any fuse, tests its own input, and stores nothing if it refuses; so nothing need be
 * tested before a call. All that a caller owes is what C always owes: `length` bytes at `image` that are its own to lend, and that nobody
 * else writes before the call returns. A length of 0 is fine, and `image` may then be NULL.
 *
 * Offsets, sizes and lengths are in bytes and counted from the start of the image. "The offset of a body" is what syrinthoa_reserve answers
 * as its place; requests name a clump by it. Words are 8 bytes, least significant byte first, at offsets divisible by 8.
 *
 * Each request is a list of word stores. The library makes them one by one: each word by one store of 8 bytes, once, in the list's order,
 * and nothing else into the image. Where the image begins at an address divisible by 8, as mapped memory does, these are aligned words, and
 * the words that a power loss leaves are those of some beginning of the list, if the machine stores an aligned word whole or not at all and
 * in the order asked. What lies behind the processor's store, as its caches, is the caller's to flush; each answer says which bytes.
 *
 * The functions keep nothing between calls, take no memory, start no thread, and call nothing. Behind each word stands one instruction of
 * the processor, pause, so that the compiler keeps the words apart (docs/HEARD.md). */
#ifndef SYRINTHOA_H
#define SYRINTHOA_H

#include <stddef.h>
#include <stdint.h>

#ifdef __cplusplus
extern "C" {
#endif

/* What a request answers. */
struct syrinthoa_answer {
    uint64_t answer; /* SYRINTHOA_DONE, SYRINTHOA_CUT, or why it was refused */
    uint64_t place;  /* done: reserve the new body's offset; create, check and recover 0; others the offset asked about. Not sound: the
                        header offset of the clump at fault. Else 0 */
    uint64_t fault;  /* not sound: one of SYRINTHOA_FAULT_..; else 0 */
    uint64_t stores; /* how many words were stored, also where a word kept its value */
    /* What to flush: the lowest offset stored to, and the offset just past the highest word stored to; both 0 if nothing was stored. Every
       byte before flush_from or from flush_to on is what it was. Cut: of the words that were stored, and no other. Both are divisible by 8,
       and flush_to is at most the length. */
    uint64_t flush_from;
    uint64_t flush_to;
};

/* Answers, in the order of the tests (but syrinthoa_grow tests for NO_ROOM last): the first that holds is given. 1 to 10 are refusals, and
 * store nothing. */
enum {
    SYRINTHOA_DONE = 0,
    SYRINTHOA_NOT_A_POOL = 1,  /* the length (16,512 to 1,073,741,824, divisible by 64), the signature, the total size or the padding */
    SYRINTHOA_NOT_SOUND = 2,   /* a fault in a clump; `fault` says which, `place` where */
    SYRINTHOA_UNSETTLED = 3,   /* a power loss left something unfinished: ask for recovery first */
    SYRINTHOA_SIZE_ZERO = 4,
    SYRINTHOA_NO_ROOM = 5,     /* no FREE clump is large enough; to grow: the next clump is not FREE, missing, or too small */
    SYRINTHOA_NO_CLUMP = 6,    /* no clump has its body at that offset */
    SYRINTHOA_WRONG_STATE = 7, /* the clump's state does not allow it */
    SYRINTHOA_LIST_FULL = 8,   /* the list's third entry is used; it may be so with fewer than three assignments listed */
    SYRINTHOA_LIST_EMPTY = 9,
    SYRINTHOA_BAD_TARGET = 10, /* a target is not a word of the static area or of a body that isn't FREE */
    SYRINTHOA_CUT = 11         /* the fuse did not last: the first so many words are stored, and no other. Ask for recovery next */
};

/* Faults, as answer 2 names them. */
enum {
    SYRINTHOA_FAULT_SIZE = 1,
    SYRINTHOA_FAULT_STATE = 2,
    SYRINTHOA_FAULT_LIST = 3,
    SYRINTHOA_FAULT_SECOND_UNFINISHED = 4,
    SYRINTHOA_FAULT_UNFINISHED_TARGET = 5
};

/* States of a clump, the word at 8 of its header. */
enum {
    SYRINTHOA_FREE = 0,
    SYRINTHOA_RESERVED = 1,
    SYRINTHOA_ACTIVATING = 2,
    SYRINTHOA_ACTIVE = 3,
    SYRINTHOA_FREEING = 4
};

/* Bytes of the clumps in each state, headers included. */
struct syrinthoa_totals {
    uint64_t free;
    uint64_t reserved;
    uint64_t activating;
    uint64_t active;
    uint64_t freeing;
};

/* What a check answers. */
struct syrinthoa_checked {
    struct syrinthoa_answer answer;
    struct syrinthoa_totals totals;
};

/* The fuse of one who means no cut: more stores than any list has. A smaller one is for trying what a power loss leaves. */
#define SYRINTHOA_LASTING UINT64_C(18446744073709551615)

/* The owner's static area: 512 words, which targets may name. */
#define SYRINTHOA_STATIC 4096
#define SYRINTHOA_STATIC_END 8192

/* Makes a pool over whatever the image held: one FREE clump, and a static area of zeros. The bytes below 4096, those from 8192 to 12287 and
 * those from 16448 on stay as they are.
 * Answers DONE, place 0; NOT_A_POOL, for a wrong length alone; CUT.
 * A power loss after the first word and before the last leaves no pool, whatever stood there before: create again. */
struct syrinthoa_answer syrinthoa_create(uint8_t *image, size_t length, uint64_t fuse);

/* Takes a body of `size` bytes or more from the first FREE clump with room. It is RESERVED: the caller's to fill, and gone after a power
 * loss unless it is activated first. Every byte of it is 0, also those beyond `size`; and no power loss leaves it RESERVED before they are.
 * Answers DONE, with the body's offset as place; NOT_A_POOL, NOT_SOUND, UNSETTLED, SIZE_ZERO, NO_ROOM; CUT.
 * After a power loss and recovery the pool reads as if it had not been asked; bytes of what is FREE may be 0 then that were not. */
struct syrinthoa_answer syrinthoa_reserve(uint8_t *image, size_t length, uint64_t size, uint64_t fuse);

/* The same, but the body is not cleared: its bytes are what they were, perhaps those of a record that was freed. It stores 4 or 7 words,
 * where syrinthoa_reserve stores one more for every 8 bytes of the body. For a caller that writes every byte of the body before anything
 * reads it. The body may be larger than `size`: up to the next multiple of 64, and by 64 bytes more where that rest was too small to be
 * parted. A caller that writes `size` bytes alone leaves old ones behind them, and must ask syrinthoa_reserve.
 * Answers, and reads after a power loss and recovery, as syrinthoa_reserve. */
struct syrinthoa_answer syrinthoa_reserve_uncleared(uint8_t *image, size_t length, uint64_t size, uint64_t fuse);

/* Lists an assignment: when the RESERVED clump is activated, the word at `target` becomes `value`. A clump lists three assignments at most,
 * those of syrinthoa_onfree among them. A new one goes behind the last: what was carried out leaves a gap that is not filled again.
 * Answers DONE, with the offset as place; NOT_A_POOL, NOT_SOUND, UNSETTLED, NO_CLUMP, WRONG_STATE, LIST_FULL, BAD_TARGET; CUT.
 * After a power loss and recovery the pool reads as if it had not been asked. */
struct syrinthoa_answer syrinthoa_onactive(
    uint8_t *image, size_t length, uint64_t offset, uint64_t target, uint64_t value, uint64_t fuse);

/* Lists an assignment: when the RESERVED or ACTIVE clump is freed, the word at `target` becomes `value`. It stays listed when the clump is
 * activated. Three at most, as above.
 * Answers as syrinthoa_onactive.
 * Cut short by a power loss, and recovered, it reads as if it had not been asked; once it is done, it stays as long as the clump does: a
 * RESERVED one is gone after a power loss, and recovery then makes none of its assignments. */
struct syrinthoa_answer syrinthoa_onfree(
    uint8_t *image, size_t length, uint64_t offset, uint64_t target, uint64_t value, uint64_t fuse);

/* Takes back the last assignment that the RESERVED or ACTIVE clump lists, syrinthoa_onactive's or syrinthoa_onfree's.
 * Answers DONE, with the offset as place; NOT_A_POOL, NOT_SOUND, UNSETTLED, NO_CLUMP, WRONG_STATE, LIST_EMPTY; CUT.
 * It is one store: a power loss leaves it done or not begun. */
struct syrinthoa_answer syrinthoa_withdraw(uint8_t *image, size_t length, uint64_t offset, uint64_t fuse);

/* Carries out the assignments that syrinthoa_onactive listed on the RESERVED clump, in order, takes them off its list, and makes it ACTIVE:
 * it now outlasts a power loss. Those of syrinthoa_onfree stay listed, and are not judged here.
 * Answers DONE, with the offset as place; NOT_A_POOL, NOT_SOUND, UNSETTLED, NO_CLUMP, WRONG_STATE, BAD_TARGET; CUT.
 * A power loss before the first word leaves it RESERVED, to be recovered as FREE with no assignment made; after the first word, recovery
 * finishes it: every one of these assignments is made, and the clump is ACTIVE. */
struct syrinthoa_answer syrinthoa_activate(uint8_t *image, size_t length, uint64_t offset, uint64_t fuse);

/* Frees the RESERVED or ACTIVE clump, and joins it to the FREE clumps beside it. The assignments that syrinthoa_onfree listed are carried
 * out first, in order; of a RESERVED clump those of syrinthoa_onactive are taken off its list before.
 * Answers DONE, with the offset as place; NOT_A_POOL, NOT_SOUND, UNSETTLED, NO_CLUMP, WRONG_STATE, BAD_TARGET; CUT.
 * Until the clump is FREEING, a power loss leaves it RESERVED or ACTIVE, and once recovered it reads as if it had not been asked; of a
 * RESERVED one some of syrinthoa_onactive's assignments may be off the list by then, so that recovery is to be asked for before anything
 * else. From FREEING on recovery finishes the request: every one of syrinthoa_onfree's assignments is made. */
struct syrinthoa_answer syrinthoa_free(uint8_t *image, size_t length, uint64_t offset, uint64_t fuse);

/* Grows the body of the RESERVED or ACTIVE clump to `size` bytes or more, where it stands: its offset stays, and so do its bytes and its
 * list. If the body is large enough already, nothing is stored; it never shrinks. Else the FREE clump just behind it is taken, as much of
 * it as is needed: 3 stores, or 1 where no rest is left or one too small to be parted, which is taken along. The added bytes are not
 * cleared: they are what they were, perhaps those of a record that was freed, the header of the clump that was taken among them.
 * Answers DONE, with the offset as place; NOT_A_POOL, NOT_SOUND, UNSETTLED, SIZE_ZERO, NO_CLUMP, WRONG_STATE, NO_ROOM, in this order; CUT.
 * Its last store is what makes it grow: a power loss before that leaves the pool as if it had not been asked, and after it done. A RESERVED
 * clump is gone after a power loss, as ever. */
struct syrinthoa_answer syrinthoa_grow(uint8_t *image, size_t length, uint64_t offset, uint64_t size, uint64_t fuse);

/* Judges the image, and adds up the bytes in each state. It stores nothing.
 * Answers DONE, with totals that add up to the length less 16384; NOT_A_POOL, NOT_SOUND, with totals of 0. */
struct syrinthoa_checked syrinthoa_check(const uint8_t *image, size_t length);

/* Finishes or undoes what a power loss left: an ACTIVATING clump becomes ACTIVE and a FREEING one FREE, their assignments made; RESERVED
 * clumps become FREE, and none of their assignments is made; touching FREE clumps are joined. To be asked first after every start, and after
 * every answer of CUT. An offset held from before may now name another clump, and must be dropped.
 * Answers DONE, place 0; NOT_A_POOL, NOT_SOUND; CUT. Asked again, it stores nothing.
 * After a power loss in it, ask again: it ends in the same reading, however often it is cut. */
struct syrinthoa_answer syrinthoa_recover(uint8_t *image, size_t length, uint64_t fuse);

#ifdef __cplusplus
}
#endif

#endif
