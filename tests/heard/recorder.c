/* Records every store that a program makes into the memory of heard.h, as a plugin of the emulator qemu-x86_64 (plugin interface 1).
 *
 *     qemu-x86_64 -plugin recorder.so,memory=FILE,record=FILE PROGRAM
 *
 * memory is the file that the program has mapped at HEARD_AT; here it is mapped too, so that a word is read just after it was stored. (The
 * program gives it its length; nothing of it is read before the first mark.) The record has, for each call, the line "call N", a line
 * "OFFSET WIDTH BYTES" for each store, in order (the offset in the image; the bytes in hexadecimal, first to last), a line "unheard OFFSET"
 * if the memory changed otherwise than by these stores, and the line "end".
 *
 * A store of 16 bytes comes as two calls of heard(), so that a store is what one instruction has stored. The program stores into no other
 * page that counts and starts no thread. The interface's few prototypes are written out, so that nothing but a compiler is needed. */
#include "heard.h"

#include <fcntl.h>
#include <stdbool.h>
#include <stdio.h>
#include <stdlib.h>
#include <string.h>
#include <sys/mman.h>
#include <unistd.h>

typedef uint64_t plugin_id;
struct qemu_plugin_tb;
struct qemu_plugin_insn;
enum { NO_REGISTERS = 0, ON_WRITES = 2, INLINE_ADD = 0 };

extern void qemu_plugin_register_vcpu_tb_trans_cb(plugin_id, void (*)(plugin_id, struct qemu_plugin_tb *));
extern void qemu_plugin_register_atexit_cb(plugin_id, void (*)(plugin_id, void *), void *);
extern size_t qemu_plugin_tb_n_insns(const struct qemu_plugin_tb *);
extern struct qemu_plugin_insn *qemu_plugin_tb_get_insn(const struct qemu_plugin_tb *, size_t);
extern void qemu_plugin_register_vcpu_insn_exec_inline(struct qemu_plugin_insn *, int, void *, uint64_t);
extern void qemu_plugin_register_vcpu_mem_cb(
    struct qemu_plugin_insn *, void (*)(unsigned, uint32_t, uint64_t, void *), int, int, void *);
extern unsigned qemu_plugin_mem_size_shift(uint32_t);
extern bool qemu_plugin_mem_is_store(uint32_t);

int qemu_plugin_version = 1;

static const volatile uint8_t *memory; /* as it is */
static uint8_t told[HEARD_BYTES];      /* as it would be by what was heard */
static FILE *record;
static uint64_t listening; /* the call that is under way, or 0 */
static uint64_t steps;     /* how many instructions were begun */

static struct {
    uint64_t step, at;
    size_t width;
    uint8_t bytes[64];
} last; /* the store that may still go on, if its width is not 0 */

static void put_down(void) {
    if (last.width == 0) return;
    fprintf(record, "%lld %zu ", (long long)last.at - HEARD_IMAGE_AT, last.width);
    for (size_t i = 0; i < last.width; i++) fprintf(record, "%02x", last.bytes[i]);
    fputc('\n', record);
    last.width = 0;
}

static void begin_or_end(void) {
    uint64_t mark;
    memcpy(&mark, (const void *)memory, sizeof mark);
    if (listening) {
        put_down();
        for (size_t i = HEARD_MARK_BYTES; i < HEARD_BYTES; i++)
            if (told[i] != memory[i]) {
                fprintf(record, "unheard %lld\n", (long long)i - HEARD_IMAGE_AT);
                break;
            }
        fputs("end\n", record);
    }
    listening = mark;
    if (listening) {
        memcpy(told, (const void *)memory, HEARD_BYTES);
        fprintf(record, "call %llu\n", (unsigned long long)listening);
    }
}

static void heard(unsigned cpu, uint32_t info, uint64_t address, void *none) {
    (void)cpu, (void)none;
    if (address < HEARD_AT || address >= HEARD_AT + HEARD_BYTES || !qemu_plugin_mem_is_store(info)) return;
    uint64_t at = address - HEARD_AT;
    size_t width = (size_t)1 << qemu_plugin_mem_size_shift(info);
    if (at < HEARD_MARK_BYTES) {
        begin_or_end();
        return;
    }
    if (!listening) return;
    bool goes_on = last.width != 0 && last.step == steps && last.at + last.width == at && last.width + width <= sizeof last.bytes;
    if (!goes_on) {
        put_down();
        last.step = steps;
        last.at = at;
    }
    if (at + width > HEARD_BYTES) width = HEARD_BYTES - at;
    memcpy(last.bytes + last.width, (const uint8_t *)memory + at, width);
    memcpy(told + at, (const uint8_t *)memory + at, width);
    last.width += width;
}

static void translated(plugin_id id, struct qemu_plugin_tb *block) {
    (void)id;
    for (size_t i = 0; i < qemu_plugin_tb_n_insns(block); i++) {
        struct qemu_plugin_insn *one = qemu_plugin_tb_get_insn(block, i);
        qemu_plugin_register_vcpu_insn_exec_inline(one, INLINE_ADD, &steps, 1);
        qemu_plugin_register_vcpu_mem_cb(one, heard, NO_REGISTERS, ON_WRITES, NULL);
    }
}

static void over(plugin_id id, void *none) {
    (void)id, (void)none;
    if (fclose(record) != 0) perror("recorder: record");
}

static const char *after(const char *name, const char *argument) {
    size_t n = strlen(name);
    return strncmp(argument, name, n) == 0 ? argument + n : NULL;
}

int qemu_plugin_install(plugin_id id, const void *info, int count, char **arguments) {
    (void)info;
    for (int i = 0; i < count; i++) {
        const char *path;
        if ((path = after("memory=", arguments[i]))) {
            int file = open(path, O_RDONLY);
            void *mapped = mmap(NULL, HEARD_BYTES, PROT_READ, MAP_SHARED, file, 0);
            if (file < 0 || mapped == MAP_FAILED) {
                perror(path);
                return 1;
            }
            memory = mapped;
        } else if ((path = after("record=", arguments[i])) && !(record = fopen(path, "w"))) {
            perror(path);
            return 1;
        }
    }
    if (!memory || !record) {
        fputs("recorder: memory=FILE and record=FILE are wanted\n", stderr);
        return 1;
    }
    qemu_plugin_register_vcpu_tb_trans_cb(id, translated);
    qemu_plugin_register_atexit_cb(id, over, NULL);
    return 0;
}
