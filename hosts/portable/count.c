/*
 * A plugin for QEMU that counts instructions: those that the board runs from its function at `begin` on and up to the one
 * at `end`, once for each time, one number to a line.
 *
 *   qemu-system-arm -plugin count.so,begin=0xADDRESS,end=0xADDRESS,out=FILE ...
 *
 * An instruction that is passed over because its condition does not hold counts, as it takes its time too. These are
 * QEMU's own declarations, of version 1 of its plugins, which Debian has no header of.
 */
#include <inttypes.h>
#include <stdio.h>
#include <stdlib.h>
#include <string.h>

#define EXPORTED __attribute__((visibility("default")))

typedef uint64_t qemu_plugin_id_t;
struct qemu_plugin_tb;
struct qemu_plugin_insn;
struct qemu_info_t;
enum { QEMU_PLUGIN_INLINE_ADD_U64 = 0, QEMU_PLUGIN_CB_NO_REGS = 0 };

extern int qemu_plugin_version;
int qemu_plugin_install(qemu_plugin_id_t id, const struct qemu_info_t *info, int argc, char **argv);
void qemu_plugin_register_vcpu_tb_trans_cb(qemu_plugin_id_t id,
                                           void (*translated)(qemu_plugin_id_t id, struct qemu_plugin_tb *block));
void qemu_plugin_register_vcpu_insn_exec_inline(struct qemu_plugin_insn *instruction, int operation, void *number,
                                                uint64_t with);
void qemu_plugin_register_vcpu_insn_exec_cb(struct qemu_plugin_insn *instruction,
                                            void (*runs)(unsigned processor, void *data), int registers, void *data);
size_t qemu_plugin_tb_n_insns(const struct qemu_plugin_tb *block);
struct qemu_plugin_insn *qemu_plugin_tb_get_insn(const struct qemu_plugin_tb *block, size_t index);
uint64_t qemu_plugin_insn_vaddr(const struct qemu_plugin_insn *instruction);

EXPORTED int qemu_plugin_version = 1;

/* Instructions so far, and how many there were at the latest begin. */
static uint64_t count, count_at_begin;
static uint64_t begin, end;
static FILE *out;

static void begins(unsigned processor, void *data)
{
    (void)processor, (void)data;
    count_at_begin = count;
}

static void ends(unsigned processor, void *data)
{
    (void)processor, (void)data;
    fprintf(out, "%" PRIu64 "\n", count - count_at_begin);
    fflush(out);
}

/* Counts each instruction but the first of the two functions. */
static void translated(qemu_plugin_id_t id, struct qemu_plugin_tb *block)
{
    (void)id;
    for (size_t index = 0; index < qemu_plugin_tb_n_insns(block); index++) {
        struct qemu_plugin_insn *instruction = qemu_plugin_tb_get_insn(block, index);
        uint64_t at = qemu_plugin_insn_vaddr(instruction);
        if (at == begin || at == end)
            qemu_plugin_register_vcpu_insn_exec_cb(instruction, at == begin ? begins : ends, QEMU_PLUGIN_CB_NO_REGS, NULL);
        else
            qemu_plugin_register_vcpu_insn_exec_inline(instruction, QEMU_PLUGIN_INLINE_ADD_U64, &count, 1);
    }
}

static const char *value_of(const char *word, const char *name)
{
    size_t length = strlen(name);
    return strncmp(word, name, length) == 0 && word[length] == '=' ? word + length + 1 : NULL;
}

EXPORTED int qemu_plugin_install(qemu_plugin_id_t id, const struct qemu_info_t *info, int argc, char **argv)
{
    (void)info;
    for (int at = 0; at < argc; at++) {
        if (value_of(argv[at], "begin"))
            begin = strtoull(value_of(argv[at], "begin"), NULL, 16);
        if (value_of(argv[at], "end"))
            end = strtoull(value_of(argv[at], "end"), NULL, 16);
        if (value_of(argv[at], "out"))
            out = fopen(value_of(argv[at], "out"), "w");
    }
    if (!begin || !end || !out) {
        fprintf(stderr, "count: begin, end or out is missing\n");
        return 1;
    }
    qemu_plugin_register_vcpu_tb_trans_cb(id, translated);
    return 0;
}
