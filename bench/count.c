/* A plugin of qemu-user 7.2 (Debian 12) that prints how many instructions a program took, on the file descriptor 2. Debian has no header for
   plugins, so that what is used is declared here. */
#include <stddef.h>
#include <stdint.h>
#include <stdio.h>

struct qemu_plugin_tb;
struct qemu_plugin_insn;
size_t qemu_plugin_tb_n_insns(const struct qemu_plugin_tb *block);
struct qemu_plugin_insn *qemu_plugin_tb_get_insn(const struct qemu_plugin_tb *block, size_t k);
void qemu_plugin_register_vcpu_tb_trans_cb(uint64_t id, void (*call)(uint64_t, struct qemu_plugin_tb *));
void qemu_plugin_register_vcpu_insn_exec_inline(struct qemu_plugin_insn *instruction, int add, void *to, uint64_t number);
void qemu_plugin_register_atexit_cb(uint64_t id, void (*call)(uint64_t, void *), void *with);

int qemu_plugin_version = 1;
static uint64_t total;

/* Each instruction of a block that is translated will add 1. Counting by blocks would be wrong, as a block may tell one too many at the end
   of a page. */
static void translated(uint64_t id, struct qemu_plugin_tb *block) {
    (void)id;
    for (size_t k = 0; k < qemu_plugin_tb_n_insns(block); k++)
        qemu_plugin_register_vcpu_insn_exec_inline(qemu_plugin_tb_get_insn(block, k), 0, &total, 1);
}

static void ended(uint64_t id, void *with) {
    (void)id, (void)with;
    fprintf(stderr, "%llu\n", (unsigned long long)total);
}

int qemu_plugin_install(uint64_t id, const void *info, int argc, char **argv) {
    (void)info, (void)argc, (void)argv;
    qemu_plugin_register_vcpu_tb_trans_cb(id, translated);
    qemu_plugin_register_atexit_cb(id, ended, NULL);
    return 0;
}
