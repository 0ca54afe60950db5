/* Makes the calls that it reads, one a line, each on an image laid out in the memory of heard.h, and prints what each answers.
 *
 *     caller MEMORY < CALLS
 *
 * MEMORY is a file, which is made HEARD_BYTES long. A line is BUILD and then a case as tests/README.md has it:
 *
 *     BUILD LENGTH FILL K OFFSET1 WORD1 .. OFFSETK WORDK REQUEST A B C FUSE
 *
 * BUILD 0 is the library as C links it, 1 the one whose fuse is a constant (crates/lasting; FUSE is read and not used). An image of length
 * 0 is lent as NULL. The mark of heard.h is up just while the library runs. Printed is a line of answer, place, fault, stores and the two
 * ends of what to flush, and for check the five totals behind them.
 *
 * BUILD 2 calls no library: it tries the recorder, with stores of several widths for REQUEST 0, and for 1 with a change that no instruction
 * of the program makes. */
#include "heard.h"

#include "../../include/syrinthoa.h"

#include <fcntl.h>
#include <inttypes.h>
#include <stdio.h>
#include <stdlib.h>
#include <string.h>
#include <sys/mman.h>
#include <unistd.h>

typedef struct syrinthoa_answer answer;

extern answer lasting_create(uint8_t *, size_t);
extern answer lasting_reserve(uint8_t *, size_t, uint64_t);
extern answer lasting_onactive(uint8_t *, size_t, uint64_t, uint64_t, uint64_t);
extern answer lasting_onfree(uint8_t *, size_t, uint64_t, uint64_t, uint64_t);
extern answer lasting_withdraw(uint8_t *, size_t, uint64_t);
extern answer lasting_activate(uint8_t *, size_t, uint64_t);
extern answer lasting_free(uint8_t *, size_t, uint64_t);
extern answer lasting_recover(uint8_t *, size_t);
extern answer lasting_reserve_uncleared(uint8_t *, size_t, uint64_t);
extern answer lasting_grow(uint8_t *, size_t, uint64_t, uint64_t);

enum { CREATE, RESERVE, ONACTIVE, ONFREE, WITHDRAW, ACTIVATE, FREE, CHECK, RECOVER, RESERVE_UNCLEARED, GROW };

struct asked {
    uint64_t request, a, b, c, fuse;
};

static void die(const char *what) {
    perror(what);
    exit(1);
}

static answer with_fuse(uint8_t *image, size_t length, struct asked q) {
    switch (q.request) {
    case CREATE: return syrinthoa_create(image, length, q.fuse);
    case RESERVE: return syrinthoa_reserve(image, length, q.a, q.fuse);
    case ONACTIVE: return syrinthoa_onactive(image, length, q.a, q.b, q.c, q.fuse);
    case ONFREE: return syrinthoa_onfree(image, length, q.a, q.b, q.c, q.fuse);
    case WITHDRAW: return syrinthoa_withdraw(image, length, q.a, q.fuse);
    case ACTIVATE: return syrinthoa_activate(image, length, q.a, q.fuse);
    case FREE: return syrinthoa_free(image, length, q.a, q.fuse);
    case RESERVE_UNCLEARED: return syrinthoa_reserve_uncleared(image, length, q.a, q.fuse);
    case GROW: return syrinthoa_grow(image, length, q.a, q.b, q.fuse);
    default: return syrinthoa_recover(image, length, q.fuse);
    }
}

static answer lasting(uint8_t *image, size_t length, struct asked q) {
    switch (q.request) {
    case CREATE: return lasting_create(image, length);
    case RESERVE: return lasting_reserve(image, length, q.a);
    case ONACTIVE: return lasting_onactive(image, length, q.a, q.b, q.c);
    case ONFREE: return lasting_onfree(image, length, q.a, q.b, q.c);
    case WITHDRAW: return lasting_withdraw(image, length, q.a);
    case ACTIVATE: return lasting_activate(image, length, q.a);
    case FREE: return lasting_free(image, length, q.a);
    case RESERVE_UNCLEARED: return lasting_reserve_uncleared(image, length, q.a);
    case GROW: return lasting_grow(image, length, q.a, q.b);
    default: return lasting_recover(image, length);
    }
}

/* One store of 8 bytes, one of 16, one of 4, one of 1; two of 8, side by side, by one instruction run twice; one before the image. */
static void try_widths(uint8_t *image) {
    uint64_t word = UINT64_C(0x0807060504030201), turn = 0;
    __asm__ volatile(
        "movq %1, (%2)\n\t"
        "movq %1, %%xmm0\n\t"
        "punpcklqdq %%xmm0, %%xmm0\n\t"
        "movups %%xmm0, 16(%2)\n\t"
        "movl %k1, 32(%2)\n\t"
        "movb %b1, 40(%2)\n"
        "1:\n\t"
        "movq %1, 48(%2,%0,8)\n\t"
        "incq %0\n\t"
        "cmpq $2, %0\n\t"
        "jb 1b\n\t"
        "movq %1, -8(%2)"
        : "+&r"(turn)
        : "q"(word), "r"(image)
        : "memory", "cc", "xmm0");
}

/* The system changes a byte of the mapped file. */
static void try_unheard(int file) {
    if (pwrite(file, "!", 1, HEARD_IMAGE_AT + 100) != 1) die("caller: pwrite");
}

static uint64_t number(char **rest) {
    char *end;
    uint64_t n = strtoull(*rest, &end, 10);
    if (end == *rest) {
        fputs("caller: a line is too short\n", stderr);
        exit(1);
    }
    *rest = end;
    return n;
}

/* Lays the image out as the line says, and gives its length. */
static size_t lay_out(uint8_t *image, char **rest) {
    size_t length = number(rest);
    int fill = (int)number(rest);
    if (length > HEARD_IMAGE_MOST) {
        fputs("caller: an image is too long\n", stderr);
        exit(1);
    }
    memset(image, fill, length);
    for (uint64_t k = number(rest); k > 0; k--) {
        uint64_t at = number(rest), word = number(rest);
        if (at > length || length - at < 8) {
            fputs("caller: a word lies outside its image\n", stderr);
            exit(1);
        }
        for (int i = 0; i < 8; i++) image[at + i] = (uint8_t)(word >> 8 * i);
    }
    return length;
}

static void print(struct syrinthoa_checked given, int with_totals) {
    answer a = given.answer;
    struct syrinthoa_totals t = given.totals;
    printf("%" PRIu64 " %" PRIu64 " %" PRIu64 " %" PRIu64, a.answer, a.place, a.fault, a.stores);
    printf(" %" PRIu64 " %" PRIu64, a.flush_from, a.flush_to);
    if (with_totals)
        printf(" %" PRIu64 " %" PRIu64 " %" PRIu64 " %" PRIu64 " %" PRIu64, t.free, t.reserved, t.activating, t.active, t.freeing);
    putchar('\n');
}

int main(int count, char **arguments) {
    if (count != 2) {
        fputs("usage: caller MEMORY < CALLS\n", stderr);
        return 2;
    }
    int file = open(arguments[1], O_RDWR);
    if (file < 0 || ftruncate(file, HEARD_BYTES) != 0) die(arguments[1]);
    void *wanted = (void *)HEARD_AT;
    uint8_t *memory = mmap(wanted, HEARD_BYTES, PROT_READ | PROT_WRITE, MAP_SHARED | MAP_FIXED_NOREPLACE, file, 0);
    if (memory != wanted) die("caller: mmap");
    volatile uint64_t *mark = (volatile uint64_t *)memory;

    char *line = NULL;
    size_t room = 0;
    for (uint64_t call = 1; getline(&line, &room, stdin) > 0; call++) {
        char *rest = line;
        uint64_t build = number(&rest);
        size_t length = lay_out(memory + HEARD_IMAGE_AT, &rest);
        uint8_t *image = length ? memory + HEARD_IMAGE_AT : NULL;
        struct asked q;
        q.request = number(&rest);
        q.a = number(&rest);
        q.b = number(&rest);
        q.c = number(&rest);
        q.fuse = number(&rest);
        struct syrinthoa_checked given = {0};
        *mark = call;
        if (build == 2)
            q.request ? try_unheard(file) : try_widths(image);
        else if (q.request == CHECK)
            given = syrinthoa_check(image, length);
        else
            given.answer = build ? lasting(image, length, q) : with_fuse(image, length, q);
        *mark = 0;
        print(given, q.request == CHECK);
    }
    return fflush(stdout) == 0 ? 0 : 1;
}
