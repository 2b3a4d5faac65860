/*
 * counted.c: a plugin of qemu that counts instructions: of each function that a function `measure`
 * calls, it prints the name and the count on standard error.
 *
 *     qemu-aarch64 -plugin counted.so PROGRAM
 *
 * Debian has no header of qemu's plugins; what is declared here is of their version 1.
 */
#include <inttypes.h>
#include <stdbool.h>
#include <stdio.h>
#include <stdlib.h>
#include <string.h>

struct qemu_plugin_tb;
struct qemu_plugin_insn;
typedef void translated_cb(uint64_t plugin, struct qemu_plugin_tb *tb);
typedef void executed_cb(unsigned cpu, void *data);

enum { NO_REGISTERS = 0 };

extern void qemu_plugin_register_vcpu_tb_trans_cb(uint64_t plugin, translated_cb *callback);
extern void qemu_plugin_register_vcpu_tb_exec_cb(struct qemu_plugin_tb *tb, executed_cb *callback,
                                                 int flags, void *data);
extern size_t qemu_plugin_tb_n_insns(const struct qemu_plugin_tb *tb);
extern struct qemu_plugin_insn *qemu_plugin_tb_get_insn(const struct qemu_plugin_tb *tb, size_t at);
extern const char *qemu_plugin_insn_symbol(const struct qemu_plugin_insn *insn);

int qemu_plugin_install(uint64_t plugin, const void *info, int argc, char **argv);

__attribute__((visibility("default"))) int qemu_plugin_version = 1;

/* Instructions that are executed one behind the other, of one function. */
struct block {
    const char *name;
    size_t count;
    bool is_measure;
};

static const char *counted; /* the function that is counted now, or null */
static uint64_t count;
static bool is_behind_measure;

static void executed(unsigned cpu, void *data)
{
    const struct block *block = data;
    (void)cpu;
    if (block->is_measure) {
        if (counted)
            fprintf(stderr, "%s %" PRIu64 "\n", counted, count);
        counted = NULL;
    } else if (counted) {
        count += block->count;
    } else if (is_behind_measure) {
        counted = block->name;
        count = block->count;
    }
    is_behind_measure = block->is_measure;
}

static void translated(uint64_t plugin, struct qemu_plugin_tb *tb)
{
    const char *name = qemu_plugin_insn_symbol(qemu_plugin_tb_get_insn(tb, 0));
    struct block *block = malloc(sizeof *block);
    (void)plugin;
    if (!block)
        abort();
    *block = (struct block){name ? name : "", qemu_plugin_tb_n_insns(tb), false};
    block->is_measure = strcmp(block->name, "measure") == 0;
    qemu_plugin_register_vcpu_tb_exec_cb(tb, executed, NO_REGISTERS, block);
}

__attribute__((visibility("default"))) int qemu_plugin_install(uint64_t plugin, const void *info,
                                                               int argc, char **argv)
{
    (void)info;
    (void)argc;
    (void)argv;
    qemu_plugin_register_vcpu_tb_trans_cb(plugin, translated);
    return 0;
}
