// A plug-in for the emulator qemu: counts the instructions that a program executes in each of its functions, and writes the counts, each with a name
// behind it, to the file that COUNT_FILE names; what has no name, as the C library, is `-`. A repeated string instruction counts once for each of
// its repetitions. The few functions of qemu's plug-in interface (version 1) that are used are declared here, since Debian has no package of
// its header.
#include <stddef.h>
#include <stdint.h>
#include <stdio.h>
#include <stdlib.h>
#include <string.h>

struct block;
struct instruction;
extern void qemu_plugin_register_vcpu_tb_trans_cb(uint64_t id, void (*seen)(uint64_t id, struct block *block));
extern size_t qemu_plugin_tb_n_insns(const struct block *block);
extern struct instruction *qemu_plugin_tb_get_insn(const struct block *block, size_t at);
extern const char *qemu_plugin_insn_symbol(const struct instruction *instruction);
extern void qemu_plugin_register_vcpu_tb_exec_inline(struct block *block, int add, void *to, uint64_t many);
extern void qemu_plugin_register_atexit_cb(uint64_t id, void (*ends)(uint64_t id, void *with), void *with);

enum { MOST = 10000 };
int qemu_plugin_version = 1;
static struct { char *name; uint64_t count; } functions[MOST];
static size_t known;

// Where the instructions of a function are counted.
static uint64_t *count_of(const char *name)
{
    size_t i = 0;
    while (i < known && strcmp(functions[i].name, name))
        i++;
    if (i == MOST)
        abort();
    if (i == known)
        functions[known++].name = strdup(name);
    return &functions[i].count;
}

static void seen(uint64_t id, struct block *block)
{
    const char *name = qemu_plugin_insn_symbol(qemu_plugin_tb_get_insn(block, 0));
    qemu_plugin_register_vcpu_tb_exec_inline(block, 0, count_of(name ? name : "-"), qemu_plugin_tb_n_insns(block));
}

static void ends(uint64_t id, void *with)
{
    FILE *file = fopen(getenv("COUNT_FILE"), "w");
    for (size_t i = 0; i < known; i++)
        fprintf(file, "%lu %s\n", (unsigned long)functions[i].count, functions[i].name);
    fclose(file);
}

int qemu_plugin_install(uint64_t id, const void *about, int many, char **words)
{
    qemu_plugin_register_vcpu_tb_trans_cb(id, seen);
    qemu_plugin_register_atexit_cb(id, ends, NULL);
    return 0;
}
