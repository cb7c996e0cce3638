// A plugin for qemu-x86_64: how many instructions a program ran, written to standard error at its end. Given
//     call=N      writes the count so far at each system call of that number instead
//     blocks=on   writes before each such count what ran since the last one, a line `ADDRESS COUNT` for each block of code
// The plugin interface's declarations are written out here, since not every system ships its header.
#include <inttypes.h>
#include <stdbool.h>
#include <stdio.h>
#include <stdlib.h>
#include <string.h>

typedef uint64_t qemu_plugin_id_t;
struct qemu_plugin_tb;
enum { NO_REGISTERS = 0 };

void qemu_plugin_register_vcpu_tb_trans_cb(qemu_plugin_id_t, void (*)(qemu_plugin_id_t, struct qemu_plugin_tb *));
void qemu_plugin_register_vcpu_tb_exec_cb(struct qemu_plugin_tb *, void (*)(unsigned, void *), int, void *);
void qemu_plugin_register_vcpu_syscall_cb(qemu_plugin_id_t, void (*)(qemu_plugin_id_t, unsigned, int64_t, uint64_t, uint64_t,
                                                                     uint64_t, uint64_t, uint64_t, uint64_t, uint64_t, uint64_t));
void qemu_plugin_register_atexit_cb(qemu_plugin_id_t, void (*)(qemu_plugin_id_t, void *), void *);
size_t qemu_plugin_tb_n_insns(const struct qemu_plugin_tb *);
uint64_t qemu_plugin_tb_vaddr(const struct qemu_plugin_tb *);

int qemu_plugin_version = 1;

struct block {
    uint64_t address, length, count;
    struct block *next;
};
static struct block *blocks;
static uint64_t count;
static int64_t marked = -1;
static bool each;

static void ran(unsigned cpu, void *run) {
    struct block *block = run;
    count += block->length;
    block->count += block->length;
}

static void translated(qemu_plugin_id_t id, struct qemu_plugin_tb *code) {
    struct block *block = calloc(1, sizeof *block);
    if (!block) abort();
    *block = (struct block){qemu_plugin_tb_vaddr(code), qemu_plugin_tb_n_insns(code), 0, blocks};
    blocks = block;
    qemu_plugin_register_vcpu_tb_exec_cb(code, ran, NO_REGISTERS, block);
}

static void show(void) {
    for (struct block *block = blocks; each && block; block = block->next) {
        if (block->count) fprintf(stderr, "%" PRIu64 " %" PRIu64 "\n", block->address, block->count);
        block->count = 0;
    }
    fprintf(stderr, "%" PRIu64 "\n", count);
}

static void called(qemu_plugin_id_t id, unsigned cpu, int64_t number, uint64_t a, uint64_t b, uint64_t c, uint64_t d, uint64_t e,
                   uint64_t f, uint64_t g, uint64_t h) {
    if (number == marked) show();
}

static void ended(qemu_plugin_id_t id, void *nothing) {
    if (marked < 0) show();
}

int qemu_plugin_install(qemu_plugin_id_t id, const void *emulator, int argc, char **argv) {
    for (int i = 0; i < argc; i++) {
        if (!strncmp(argv[i], "call=", 5)) marked = atoi(argv[i] + 5);
        if (!strcmp(argv[i], "blocks=on")) each = true;
    }
    qemu_plugin_register_vcpu_tb_trans_cb(id, translated);
    qemu_plugin_register_vcpu_syscall_cb(id, called);
    qemu_plugin_register_atexit_cb(id, ended, NULL);
    return 0;
}
