/*
 * A plugin for qemu-x86_64 that counts the instructions a program runs: what valgrind's callgrind counts, on machines of another processor.
 * With the argument `calls=on` it counts those of the calls of the library alone: from where one begins until the program's own code goes on,
 * as callgrind does with --toggle-collect.
 */
#include <inttypes.h>
#include <stdbool.h>
#include <stddef.h>
#include <stdint.h>
#include <stdio.h>
#include <string.h>

#define SEEN __attribute__((visibility("default")))

typedef uint64_t plugin_id;
struct qemu_plugin_tb;
struct qemu_plugin_insn;
enum { NO_REGISTERS = 0 };
void qemu_plugin_register_vcpu_tb_trans_cb(plugin_id id, void (*on_block)(plugin_id, struct qemu_plugin_tb *));
size_t qemu_plugin_tb_n_insns(const struct qemu_plugin_tb *block);
struct qemu_plugin_insn *qemu_plugin_tb_get_insn(const struct qemu_plugin_tb *block, size_t index);
const char *qemu_plugin_insn_symbol(const struct qemu_plugin_insn *instruction);
void qemu_plugin_register_vcpu_tb_exec_inline(struct qemu_plugin_tb *block, int add, void *counter, uint64_t by);
void qemu_plugin_register_vcpu_tb_exec_cb(struct qemu_plugin_tb *block, void (*on_run)(unsigned, void *), int registers, void *with);
void qemu_plugin_register_atexit_cb(plugin_id id, void (*on_end)(plugin_id, void *), void *with);

SEEN int qemu_plugin_version = 1;
static uint64_t count, began, inside;
static bool called, calls_alone;

static void on_call(unsigned cpu, void *with) {
    (void)cpu, (void)with;
    if (!called) {
        called = true;
        began = count;
    }
}

static void on_own(unsigned cpu, void *with) {
    (void)cpu, (void)with;
    if (called) {
        called = false;
        inside += count - began;
    }
}

static void on_block(plugin_id id, struct qemu_plugin_tb *block) {
    (void)id;
    const char *symbol = qemu_plugin_insn_symbol(qemu_plugin_tb_get_insn(block, 0));
    if (symbol != NULL && strncmp(symbol, "bradovusc_", strlen("bradovusc_")) == 0) {
        qemu_plugin_register_vcpu_tb_exec_cb(block, on_call, NO_REGISTERS, NULL);
    } else if (symbol != NULL && strcmp(symbol, "main") == 0) {
        qemu_plugin_register_vcpu_tb_exec_cb(block, on_own, NO_REGISTERS, NULL);
    }
    qemu_plugin_register_vcpu_tb_exec_inline(block, 0, &count, qemu_plugin_tb_n_insns(block));
}

static void on_end(plugin_id id, void *with) {
    (void)id, (void)with;
    fprintf(stderr, "Collected : %" PRIu64 "\n", calls_alone ? inside : count);
}

SEEN int qemu_plugin_install(plugin_id id, const void *info, int argc, char **argv) {
    (void)info;
    calls_alone = argc == 1 && strcmp(argv[0], "calls=on") == 0;
    qemu_plugin_register_vcpu_tb_trans_cb(id, on_block);
    qemu_plugin_register_atexit_cb(id, on_end, NULL);
    return 0;
}
