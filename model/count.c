/* Counts executed instructions by function: a plugin for qemu-user of Debian 12, which knows the symbols of the program it runs.
   Writes lines "instructions name" to the file that COUNTS names; "-" is what has no symbol: the C library and the loader. */
#include <inttypes.h>
#include <stdio.h>
#include <stdlib.h>

/* What is used here of qemu's plugin interface; Debian does not ship its header. */
struct qemu_plugin_tb;
struct qemu_plugin_insn;
typedef uint64_t plugin_id;
size_t qemu_plugin_tb_n_insns(const struct qemu_plugin_tb *);
struct qemu_plugin_insn *qemu_plugin_tb_get_insn(const struct qemu_plugin_tb *, size_t);
const char *qemu_plugin_insn_symbol(const struct qemu_plugin_insn *);
void qemu_plugin_register_vcpu_tb_trans_cb(plugin_id, void (*)(plugin_id, struct qemu_plugin_tb *));
void qemu_plugin_register_vcpu_tb_exec_cb(struct qemu_plugin_tb *, void (*)(unsigned, void *), int, void *);
void qemu_plugin_register_atexit_cb(plugin_id, void (*)(plugin_id, void *), void *);
int qemu_plugin_version = 1;

/* A straight run of instructions, left at its end only, and how often it was entered. */
struct run {
    const char *name;
    uint64_t size, times;
    struct run *next;
};
static struct run *runs;

static void entered(unsigned cpu, void *run)
{
    (void)cpu;
    ((struct run *)run)->times++;
}

static void translated(plugin_id id, struct qemu_plugin_tb *tb)
{
    (void)id;
    struct run *run = calloc(1, sizeof *run);
    if (!run)
        abort();
    run->name = qemu_plugin_insn_symbol(qemu_plugin_tb_get_insn(tb, 0));
    run->size = qemu_plugin_tb_n_insns(tb);
    run->next = runs;
    runs = run;
    qemu_plugin_register_vcpu_tb_exec_cb(tb, entered, 0, run);
}

static void ended(plugin_id id, void *unused)
{
    (void)id;
    (void)unused;
    FILE *out = fopen(getenv("COUNTS"), "w");
    if (!out)
        abort();
    for (struct run *run = runs; run; run = run->next)
        if (run->times)
            fprintf(out, "%" PRIu64 " %s\n", run->size * run->times, run->name && *run->name ? run->name : "-");
    fclose(out);
}

int qemu_plugin_install(plugin_id id, const void *info, int argc, char **argv)
{
    (void)info;
    (void)argc;
    (void)argv;
    qemu_plugin_register_vcpu_tb_trans_cb(id, translated);
    qemu_plugin_register_atexit_cb(id, ended, NULL);
    return 0;
}
