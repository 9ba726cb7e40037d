/* A plugin of qemu-user 7.2: of each function named, how often it was entered, the instructions from its entry to its return, with all that it calls,
 * and the bytes that were meanwhile written to a part of memory (by instructions for the cache, as Arm's memset has them, not seen). At the end one
 * line for each to standard error:
 *
 *   NAME TIMES INSTRUCTIONS WRITTEN
 *
 * Counted is what is behind the first call of the program's function `began`; a function counts again only once it has returned. Where `ended` is
 * named, the lines are written at each call of it, and the next counts begin at the next call of `began`. Where a function is named `measured`, the
 * others count inside it alone; it is named before them. Its instructions as they are executed, at its REQUESTth call behind `began`, go to a FILE,
 * if one is named: a line for each, its bytes as `[0x1f,0x20,0x03,0xd5]`, and behind the last an empty one.
 * Words: began=ADDRESS, ended=ADDRESS, NAME=ADDRESS (hexadecimal), up to eight; memory=ADDRESS, size=BYTES (decimal) for the part; code=FILE,
 * request=REQUEST (decimal). */
#include <stdint.h>
#include <stdio.h>
#include <stdlib.h>
#include <string.h>

/* the interface of plugins, of version 1, as far as it is used; Debian has no header of it */
typedef uint64_t qemu_plugin_id_t;
struct qemu_plugin_tb;
struct qemu_plugin_insn;
int qemu_plugin_version = 1;
void qemu_plugin_register_vcpu_tb_trans_cb(qemu_plugin_id_t, void (*)(qemu_plugin_id_t, struct qemu_plugin_tb *));
void qemu_plugin_register_vcpu_tb_exec_cb(struct qemu_plugin_tb *, void (*)(unsigned, void *), int flags, void *);
void qemu_plugin_register_vcpu_mem_cb(struct qemu_plugin_insn *, void (*)(unsigned, uint32_t, uint64_t, void *), int flags, int accesses, void *);
void qemu_plugin_register_atexit_cb(qemu_plugin_id_t, void (*)(qemu_plugin_id_t, void *), void *);
size_t qemu_plugin_tb_n_insns(const struct qemu_plugin_tb *);
struct qemu_plugin_insn *qemu_plugin_tb_get_insn(const struct qemu_plugin_tb *, size_t);
uint64_t qemu_plugin_insn_vaddr(const struct qemu_plugin_insn *);
size_t qemu_plugin_insn_size(const struct qemu_plugin_insn *);
const void *qemu_plugin_insn_data(const struct qemu_plugin_insn *);
unsigned qemu_plugin_mem_size_shift(uint32_t);
_Bool qemu_plugin_mem_is_store(uint32_t);
enum { NO_REGISTERS = 0, WRITES = 2, MOST = 8 };

typedef struct {
    char name[32];
    uint64_t entry, back; /* back: where it returns to, 0 while it is not at work */
    uint64_t times, instructions, written;
} function;
typedef struct {
    uint64_t from, to, instructions;
    char *code; /* its instructions, where they are written down */
} block;

static function functions[MOST];
static int count;
static const function *measured;
static uint64_t began, ended, memory, size, request;
static FILE *code;
static _Bool counting;
static uint64_t behind; /* the block that was executed last: a call is its last instruction */

static void tell(void) {
    for (function *f = functions; f < functions + count; f++) {
        if (f->back) fprintf(stderr, "within: %s has not returned\n", f->name);
        else
            fprintf(stderr, "%s %llu %llu %llu\n", f->name, (unsigned long long)f->times, (unsigned long long)f->instructions,
                    (unsigned long long)f->written);
        f->times = f->instructions = f->written = 0;
    }
}

static void executed(unsigned cpu, void *data) {
    (void)cpu;
    const block *b = data;
    if (b->from == began) counting = 1;
    if (ended && b->from == ended) {
        counting = 0, tell();
        if (code) fputs("\n", code), fflush(code);
    }
    for (function *f = functions; counting && f < functions + count; f++) {
        if (b->from == f->back) f->back = 0;
        if (b->from == f->entry && !f->back && (!measured || f == measured || measured->back)) f->back = behind, f->times++;
        if (f->back) f->instructions += b->instructions;
        if (code && f == measured && f->back && f->times == request) fputs(b->code, code);
    }
    behind = b->to;
}

static void written(unsigned cpu, uint32_t access, uint64_t address, void *unused) {
    (void)cpu, (void)unused;
    if (!qemu_plugin_mem_is_store(access) || address - memory >= size) return;
    for (function *f = functions; f < functions + count; f++)
        if (f->back) f->written += 1u << qemu_plugin_mem_size_shift(access);
}

static char *lines(const struct qemu_plugin_tb *tb) {
    char *text = 0;
    size_t length;
    FILE *to = open_memstream(&text, &length);
    if (!to) abort();
    for (size_t i = 0; i < qemu_plugin_tb_n_insns(tb); i++) {
        const struct qemu_plugin_insn *insn = qemu_plugin_tb_get_insn(tb, i);
        const uint8_t *bytes = qemu_plugin_insn_data(insn);
        for (size_t j = 0; j < qemu_plugin_insn_size(insn); j++) fprintf(to, "%s0x%02x", j ? "," : "[", bytes[j]);
        fputs("]\n", to);
    }
    if (fclose(to)) abort();
    return text;
}

static void translated(qemu_plugin_id_t id, struct qemu_plugin_tb *tb) {
    (void)id;
    size_t n = qemu_plugin_tb_n_insns(tb);
    const struct qemu_plugin_insn *last = qemu_plugin_tb_get_insn(tb, n - 1);
    block *b = malloc(sizeof *b);
    if (!b) abort();
    *b = (block){qemu_plugin_insn_vaddr(qemu_plugin_tb_get_insn(tb, 0)), qemu_plugin_insn_vaddr(last) + qemu_plugin_insn_size(last), n,
                 code ? lines(tb) : 0};
    qemu_plugin_register_vcpu_tb_exec_cb(tb, executed, NO_REGISTERS, b);
    for (size_t i = 0; size && i < n; i++)
        qemu_plugin_register_vcpu_mem_cb(qemu_plugin_tb_get_insn(tb, i), written, NO_REGISTERS, WRITES, 0);
}

static void at_end(qemu_plugin_id_t id, void *unused) {
    (void)id, (void)unused;
    if (!ended) tell();
}

int qemu_plugin_install(qemu_plugin_id_t id, const void *info, int words, char **given) {
    (void)info;
    for (int i = 0; i < words; i++) {
        char *value = strchr(given[i], '=');
        if (!value) return 1;
        size_t n = (size_t)(value++ - given[i]);
        if (n == 5 && !memcmp(given[i], "began", n)) began = strtoull(value, 0, 16);
        else if (n == 5 && !memcmp(given[i], "ended", n)) ended = strtoull(value, 0, 16);
        else if (n == 6 && !memcmp(given[i], "memory", n)) memory = strtoull(value, 0, 16);
        else if (n == 4 && !memcmp(given[i], "size", n)) size = strtoull(value, 0, 10);
        else if (n == 7 && !memcmp(given[i], "request", n)) request = strtoull(value, 0, 10);
        else if (n == 4 && !memcmp(given[i], "code", n)) code = fopen(value, "w");
        else if (count == MOST || n >= sizeof functions[0].name) return 1;
        else {
            memcpy(functions[count].name, given[i], n);
            if (!strcmp(functions[count].name, "measured")) measured = &functions[count];
            functions[count++].entry = strtoull(value, 0, 16);
        }
    }
    if (request && !code) return 1;
    qemu_plugin_register_vcpu_tb_trans_cb(id, translated);
    qemu_plugin_register_atexit_cb(id, at_end, 0);
    return 0;
}
