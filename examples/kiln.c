/* A kiln's valve commands in a pool that outlasts the process: the story of README.md, told in C.
 *
 *     kiln FILE
 *
 * FILE is the memory: 32,768 bytes, mapped, so that what is stored stays when the process ends; after each request that is done just the
 * bytes that it stored are flushed, as its answer tells. Started on no file, it makes the pool, gives one command, and is cut off while
 * the second goes live. Started again, it recovers, frees the first command, and is cut off in that. Started a third time, it recovers,
 * and ends. A cut is made by a fuse: the library stores so many words and no more, and the process then kills itself, as a power loss
 * would.
 *
 * It prints a line for each request, answer, place and stores, and offset, nbytes and state of each clump on the way: the lines of
 * tests/scripts/kiln.out, over three runs. Exit status: 0; 1 if a request was refused or the file cannot be had; killed where it is cut. */
#include "syrinthoa.h"

#include <errno.h>
#include <fcntl.h>
#include <inttypes.h>
#include <signal.h>
#include <stdio.h>
#include <stdlib.h>
#include <string.h>
#include <sys/mman.h>
#include <sys/stat.h>
#include <unistd.h>

enum {
    LENGTH = 32768,
    HEAD = SYRINTHOA_STATIC,      /* the newest command's offset */
    COUNT = SYRINTHOA_STATIC + 8, /* how many commands there are */
    FIRST_CLUMP = 16384,
    STATE = 8 /* in a clump's header, behind nbytes */
};

static const char *name; /* the file's */
static uint8_t *image;

static void refuse(const char *why) {
    fprintf(stderr, "kiln: %s: %s\n", name, why);
    exit(1);
}

static uint64_t word(uint64_t offset) {
    uint64_t w;
    memcpy(&w, image + offset, sizeof w);
    return w;
}

/* Flushes what a request stored, and nothing else: the pages that have bytes from flush_from up to flush_to. */
static void flush(struct syrinthoa_answer a) {
    uint64_t start = a.flush_from - a.flush_from % (uint64_t)sysconf(_SC_PAGESIZE);
    if (a.stores && msync(image + start, a.flush_to - start, MS_SYNC) != 0) refuse(strerror(errno));
}

/* Prints what a request answered, and gives its place. One that was cut ends the process, as if the power had gone. */
static uint64_t answered(struct syrinthoa_answer a) {
    printf("%" PRIu64 " %" PRIu64 " %" PRIu64 "\n", a.answer, a.place, a.stores);
    fflush(stdout);
    if (a.answer == SYRINTHOA_CUT) raise(SIGKILL);
    if (a.answer != SYRINTHOA_DONE) exit(1);
    flush(a);
    return a.place;
}

/* Prints the clumps. The image is a sound pool here, so that every clump says where the next one is. */
static void walk(void) {
    for (uint64_t at = FIRST_CLUMP; at < LENGTH; at += word(at))
        printf("%" PRIu64 " %" PRIu64 " %" PRIu64 "\n", at, word(at), word(at + STATE));
}

/* Reserves a command's body and lists what shall change with it: the head and the count, and the link of the command before, if any. */
static uint64_t prepare(uint64_t size, uint64_t count, uint64_t before) {
    uint64_t body = answered(syrinthoa_reserve(image, LENGTH, size, SYRINTHOA_LASTING));
    answered(syrinthoa_onactive(image, LENGTH, body, HEAD, body, SYRINTHOA_LASTING));
    answered(syrinthoa_onactive(image, LENGTH, body, COUNT, count, SYRINTHOA_LASTING));
    if (before) answered(syrinthoa_onactive(image, LENGTH, body, before, body, SYRINTHOA_LASTING));
    return body;
}

/* A new pool: a command that goes live, and one that is cut off after 3 words. */
static void first_day(void) {
    struct syrinthoa_answer made = syrinthoa_create(image, LENGTH, SYRINTHOA_LASTING);
    if (made.answer != SYRINTHOA_DONE) refuse("no pool was made");
    flush(made);
    uint64_t first = prepare(320, 1, 0);
    answered(syrinthoa_activate(image, LENGTH, first, SYRINTHOA_LASTING));
    walk();
    uint64_t second = prepare(200, 2, first);
    walk();
    answered(syrinthoa_activate(image, LENGTH, second, 3));
}

/* Two commands are live: the first is freed, which shall set the count, and is cut off after 1 word. */
static void second_day(void) {
    uint64_t first = FIRST_CLUMP + 64;
    answered(syrinthoa_onfree(image, LENGTH, first, COUNT, 1, SYRINTHOA_LASTING));
    answered(syrinthoa_free(image, LENGTH, first, 1));
}

/* After a power loss: what is there, and what recovery makes of it. Only then may anything else be asked. */
static void recover(void) {
    if (syrinthoa_check(image, LENGTH).answer.answer != SYRINTHOA_DONE) refuse("not a sound pool");
    walk();
    answered(syrinthoa_recover(image, LENGTH, SYRINTHOA_LASTING));
    walk();
}

/* Maps the file, and says whether it is new. */
static int lend(const char *path) {
    int file = open(path, O_RDWR | O_CREAT, 0666);
    struct stat about;
    if (file < 0 || fstat(file, &about) != 0) refuse(strerror(errno));
    int is_new = about.st_size == 0;
    if (is_new && ftruncate(file, LENGTH) != 0) refuse(strerror(errno));
    if (!is_new && about.st_size != LENGTH) refuse("not of 32,768 bytes");
    image = mmap(NULL, LENGTH, PROT_READ | PROT_WRITE, MAP_SHARED, file, 0);
    if (image == MAP_FAILED) refuse(strerror(errno));
    return is_new;
}

int main(int count, char **arguments) {
    if (count != 2) {
        fputs("usage: kiln FILE\n", stderr);
        return 1;
    }
    name = arguments[1];
    if (lend(name)) {
        first_day();
    } else {
        recover();
        if (word(COUNT) == 2) second_day();
        answered(syrinthoa_recover(image, LENGTH, SYRINTHOA_LASTING)); /* once more: nothing is left to do */
    }
    return 0;
}
