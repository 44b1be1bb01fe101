/* A plugin for qemu's user-mode emulators: counts the guest instructions that are executed, and writes a line for each function to the file `out`.
 * Debian has no header for plugins, so what is used of it is declared here. API is 1 before qemu 9, and 2 from there on. */
#include <inttypes.h>
#include <stdio.h>
#include <stdlib.h>
#include <string.h>
typedef uint64_t Plugin;
struct qemu_plugin_tb;
struct qemu_plugin_insn;
size_t qemu_plugin_tb_n_insns(const struct qemu_plugin_tb *);
struct qemu_plugin_insn *qemu_plugin_tb_get_insn(const struct qemu_plugin_tb *, size_t);
const char *qemu_plugin_insn_symbol(const struct qemu_plugin_insn *);
void qemu_plugin_register_vcpu_tb_trans_cb(Plugin, void (*)(Plugin, struct qemu_plugin_tb *));
void qemu_plugin_register_vcpu_tb_exec_cb(struct qemu_plugin_tb *, void (*)(unsigned, void *), int flags, void *);
void qemu_plugin_register_atexit_cb(Plugin, void (*)(Plugin, void *), void *);
int qemu_plugin_version = API;

/* A block of code runs from its first instruction to its last. */
typedef struct Block { struct Block *next; const char *function; uint64_t instructions, runs; } Block;
static Block *blocks;
static void count_run(unsigned cpu, void *block) { ((Block *)block)->runs++; }
static void count_block(Plugin plugin, struct qemu_plugin_tb *code) {
    const char *function = qemu_plugin_insn_symbol(qemu_plugin_tb_get_insn(code, 0));
    Block *block = malloc(sizeof *block);
    if (block == NULL) abort();
    *block = (Block){blocks, function != NULL ? strdup(function) : "(no name)", qemu_plugin_tb_n_insns(code), 0};
    blocks = block;
    qemu_plugin_register_vcpu_tb_exec_cb(code, count_run, 0, block);
}
static void write_counts(Plugin plugin, void *out) {
    for (Block *b = blocks; b != NULL; b = b->next) fprintf(out, "%" PRIu64 " %s\n", b->runs * b->instructions, b->function);
    fclose(out);
}
int qemu_plugin_install(Plugin plugin, const void *info, int count, char **words) {
    FILE *out = count == 1 && strncmp(words[0], "out=", 4) == 0 ? fopen(words[0] + 4, "w") : NULL;
    if (out == NULL) return 1;
    qemu_plugin_register_vcpu_tb_trans_cb(plugin, count_block);
    qemu_plugin_register_atexit_cb(plugin, write_counts, out);
    return 0;
}
