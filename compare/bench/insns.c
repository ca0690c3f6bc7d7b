/* A plugin for qemu-user: how many instructions the guest program executed, printed at its end as 'instructions N'.
   It declares what it uses of the plugin interface (version 1), which no package has a header of. */
#include <stdint.h>
#include <stddef.h>
#include <stdio.h>

struct block;
struct instruction;
void qemu_plugin_register_vcpu_tb_trans_cb(uint64_t id, void (*translated)(uint64_t id, struct block *block));
void qemu_plugin_register_atexit_cb(uint64_t id, void (*ended)(uint64_t id, void *data), void *data);
size_t qemu_plugin_tb_n_insns(const struct block *block);
struct instruction *qemu_plugin_tb_get_insn(const struct block *block, size_t index);
void qemu_plugin_register_vcpu_insn_exec_inline(struct instruction *instruction, int operation, void *counter, uint64_t value);
void qemu_plugin_outs(const char *text);

int qemu_plugin_version = 1;
static uint64_t executed;

static void translated(uint64_t id, struct block *block) {
    (void)id;
    for (size_t i = 0; i < qemu_plugin_tb_n_insns(block); i++)
        qemu_plugin_register_vcpu_insn_exec_inline(qemu_plugin_tb_get_insn(block, i), 0 /* add */, &executed, 1);
}

static void ended(uint64_t id, void *data) {
    char text[64];
    (void)id, (void)data;
    snprintf(text, sizeof text, "instructions %llu\n", (unsigned long long)executed);
    qemu_plugin_outs(text);
}

int qemu_plugin_install(uint64_t id, const void *machine, int count, char **arguments) {
    (void)machine, (void)count, (void)arguments;
    qemu_plugin_register_vcpu_tb_trans_cb(id, translated);
    qemu_plugin_register_atexit_cb(id, ended, NULL);
    return 0;
}
