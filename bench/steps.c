/* A plugin of qemu-user 7.2: what a program executes between its functions `began` and `ended`, one line for each time but the first, which is the
 * program's preparation:
 *
 *   WHOLE SAME FROM LAST BYTES
 *
 * WHOLE: instructions in all. SAME: how many of them, from the first on, are those of the first line, at the same places, reading and writing at the
 * same addresses (those of prefetches and of instructions for the cache are not seen). FROM, LAST: which instruction was the first, and which the
 * last, to read from the bytes in question, 0 where none was; BYTES: how many of these were read.
 * Words: began=, ended=, bytes= (hexadecimal addresses), size= (decimal). The lines go to standard error. */
#include <stdint.h>
#include <stdio.h>
#include <stdlib.h>
#include <string.h>

/* the interface of plugins, of version 1, as far as it is used; Debian has no header of it */
typedef uint64_t qemu_plugin_id_t;
struct qemu_plugin_tb;
struct qemu_plugin_insn;
int qemu_plugin_version = 1;
void qemu_plugin_register_vcpu_tb_trans_cb(qemu_plugin_id_t, void (*)(qemu_plugin_id_t, struct qemu_plugin_tb *));
void qemu_plugin_register_vcpu_insn_exec_cb(struct qemu_plugin_insn *, void (*)(unsigned, void *), int flags, void *);
void qemu_plugin_register_vcpu_mem_cb(struct qemu_plugin_insn *, void (*)(unsigned, uint32_t, uint64_t, void *), int flags, int accesses, void *);
size_t qemu_plugin_tb_n_insns(const struct qemu_plugin_tb *);
struct qemu_plugin_insn *qemu_plugin_tb_get_insn(const struct qemu_plugin_tb *, size_t);
uint64_t qemu_plugin_insn_vaddr(const struct qemu_plugin_insn *);
unsigned qemu_plugin_mem_size_shift(uint32_t);
_Bool qemu_plugin_mem_is_store(uint32_t);
enum { NO_REGISTERS = 0, READS_AND_WRITES = 3 };

enum { MOST = 1 << 22, LONGEST = 4096 };
static uint64_t began, ended, bytes, size;
static uint64_t model[MOST]; /* of the first line: the addresses of instructions and of what they read and write, in order */
static uint64_t whole, same, from, last;
static size_t at, times;
static int within, parted;
static uint8_t was_read[LONGEST];

static void put(uint64_t address, uint64_t before) { /* before: instructions before this one */
    if (at == MOST) abort();
    if (times == 1) model[at] = address;
    else if (!parted && model[at] != address) parted = 1, same = before;
    at++;
}

static void tell(void) {
    uint64_t n = 0;
    for (size_t i = 0; i < size; i++) n += was_read[i];
    if (!parted) same = whole;
    if (times > 0)
        fprintf(stderr, "%llu %llu %llu %llu %llu\n", (unsigned long long)whole, (unsigned long long)same, (unsigned long long)from,
                (unsigned long long)last, (unsigned long long)n);
    times++;
}

static void executed(unsigned cpu, void *address) {
    (void)cpu;
    uint64_t a = (uint64_t)(uintptr_t)address;
    if (a == began) {
        within = 1, parted = 0;
        whole = from = last = 0, at = 0;
        memset(was_read, 0, sizeof was_read);
    } else if (a == ended && within) {
        within = 0;
        tell();
    } else if (within) put(a, whole++);
}

static void touched(unsigned cpu, uint32_t access, uint64_t address, void *unused) {
    (void)cpu, (void)unused;
    if (!within || !whole) return; /* where `began` itself is at work no instruction is counted yet */
    put(address, whole - 1);
    if (qemu_plugin_mem_is_store(access)) return;
    for (uint64_t a = address; a < address + (1u << qemu_plugin_mem_size_shift(access)); a++)
        if (a - bytes < size) {
            was_read[a - bytes] = 1;
            if (!from) from = whole;
            last = whole;
        }
}

static void translated(qemu_plugin_id_t id, struct qemu_plugin_tb *block) {
    (void)id;
    for (size_t i = 0; i < qemu_plugin_tb_n_insns(block); i++) {
        struct qemu_plugin_insn *insn = qemu_plugin_tb_get_insn(block, i);
        qemu_plugin_register_vcpu_insn_exec_cb(insn, executed, NO_REGISTERS, (void *)(uintptr_t)qemu_plugin_insn_vaddr(insn));
        qemu_plugin_register_vcpu_mem_cb(insn, touched, NO_REGISTERS, READS_AND_WRITES, 0);
    }
}

static uint64_t word(int words, char **given, const char *name, int base) {
    size_t n = strlen(name);
    for (int i = 0; i < words; i++)
        if (!strncmp(given[i], name, n)) return strtoull(given[i] + n, 0, base);
    return 0;
}

int qemu_plugin_install(qemu_plugin_id_t id, const void *info, int words, char **given) {
    (void)info;
    began = word(words, given, "began=", 16);
    ended = word(words, given, "ended=", 16);
    bytes = word(words, given, "bytes=", 16);
    size = word(words, given, "size=", 10);
    if (!began || !ended || !bytes || !size || size > LONGEST) return 1;
    qemu_plugin_register_vcpu_tb_trans_cb(id, translated);
    return 0;
}
