/*
 * A plugin of QEMU's user emulation: counts the instructions that a program executes, and writes
 * the number to the file that its one argument names (-plugin count.so,to=FILE).
 * No package of Debian 12 has qemu-plugin.h, so what is used of it is declared here.
 */
#include <inttypes.h>
#include <stdio.h>
#include <string.h>

#ifndef PLUGIN_VERSION
#define PLUGIN_VERSION 1
#endif

typedef uint64_t plugin_id;
struct qemu_plugin_tb;

enum { NO_REGISTERS = 0 };

size_t qemu_plugin_tb_n_insns(const struct qemu_plugin_tb *tb);
void qemu_plugin_register_vcpu_tb_trans_cb(plugin_id id,
                                           void (*call)(plugin_id, struct qemu_plugin_tb *));
void qemu_plugin_register_vcpu_tb_exec_cb(struct qemu_plugin_tb *tb,
                                          void (*call)(unsigned cpu, void *data), int flags,
                                          void *data);
void qemu_plugin_register_atexit_cb(plugin_id id, void (*call)(plugin_id, void *data), void *data);

int qemu_plugin_version = PLUGIN_VERSION;

static uint64_t executed;
static char to[4096];

static void on_executed(unsigned cpu, void *instructions)
{
    (void)cpu;
    executed += (uintptr_t)instructions;
}

/* A block's instructions are counted each time that it is entered. */
static void on_translated(plugin_id id, struct qemu_plugin_tb *block)
{
    (void)id;
    qemu_plugin_register_vcpu_tb_exec_cb(block, on_executed, NO_REGISTERS,
                                         (void *)(uintptr_t)qemu_plugin_tb_n_insns(block));
}

static void on_end(plugin_id id, void *data)
{
    FILE *file = fopen(to, "w");

    (void)id, (void)data;
    if (!file || fprintf(file, "%" PRIu64 "\n", executed) < 0 || fclose(file) != 0)
        perror(to);
}

int qemu_plugin_install(plugin_id id, const void *info, int words, char **word)
{
    (void)info;
    if (words != 1 || strncmp(word[0], "to=", 3) != 0)
        return 1;
    snprintf(to, sizeof to, "%s", word[0] + 3);
    qemu_plugin_register_vcpu_tb_trans_cb(id, on_translated);
    qemu_plugin_register_atexit_cb(id, on_end, NULL);
    return 0;
}
