/* A plug-in of the emulator (qemu-user of Debian, plug-in interface 1) that counts executed instructions: bench/run
 * builds it where it can't have callgrind's counts.
 *
 *     qemu-x86_64 -plugin file=count.so,counts=FILE PROGRAM..
 *
 * FILE has the instructions so far in a line for each write of the program to its standard output, and in its last line
 * those of the whole process. Debian has no header for the interface: what is used of it is declared here, as qemu's
 * documentation of plug-ins gives it. */
#include <inttypes.h>
#include <stdio.h>
#include <string.h>

typedef uint64_t plugin_id;
struct block;
struct instruction;
size_t qemu_plugin_tb_n_insns(const struct block *block);
struct instruction *qemu_plugin_tb_get_insn(const struct block *block, size_t i);
void qemu_plugin_register_vcpu_tb_trans_cb(plugin_id id, void (*translated)(plugin_id, struct block *));
void qemu_plugin_register_vcpu_insn_exec_inline(struct instruction *instruction, int operation, void *number, uint64_t added);
void qemu_plugin_register_vcpu_syscall_cb(plugin_id id, void (*called)(plugin_id, unsigned, int64_t, uint64_t, uint64_t,
        uint64_t, uint64_t, uint64_t, uint64_t, uint64_t, uint64_t));
void qemu_plugin_register_atexit_cb(plugin_id id, void (*ended)(plugin_id, void *), void *given);

enum { ADD_U64 = 0, SYS_WRITE = 1, STDOUT = 1 };
int qemu_plugin_version = 1;
static uint64_t count;
static FILE *counts;

static void mark(void) { fprintf(counts, "%" PRIu64 "\n", count); }

static void translated(plugin_id id, struct block *block) {
    (void)id;
    for (size_t i = 0; i < qemu_plugin_tb_n_insns(block); i++)
        qemu_plugin_register_vcpu_insn_exec_inline(qemu_plugin_tb_get_insn(block, i), ADD_U64, &count, 1);
}

static void called(plugin_id id, unsigned processor, int64_t number, uint64_t a1, uint64_t a2, uint64_t a3, uint64_t a4,
        uint64_t a5, uint64_t a6, uint64_t a7, uint64_t a8) {
    (void)id, (void)processor, (void)a2, (void)a3, (void)a4, (void)a5, (void)a6, (void)a7, (void)a8;
    if (number == SYS_WRITE && a1 == STDOUT)
        mark();
}

static void ended(plugin_id id, void *given) {
    (void)id, (void)given;
    mark();
    fclose(counts);
}

int qemu_plugin_install(plugin_id id, const void *emulator, int words, char **word) {
    (void)emulator;
    if (words != 1 || strncmp(word[0], "counts=", 7) != 0 || !(counts = fopen(word[0] + 7, "w")))
        return 1;
    qemu_plugin_register_vcpu_tb_trans_cb(id, translated);
    qemu_plugin_register_vcpu_syscall_cb(id, called);
    qemu_plugin_register_atexit_cb(id, ended, NULL);
    return 0;
}
