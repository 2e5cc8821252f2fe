// A plugin for QEMU's user mode that counts the instructions a program executes. The number goes to
// standard error when the program ends. Instructions are counted one by one: QEMU 7 tells a block's
// length one too high where its last instruction would cross a page, and leaves that to the next.
#include <inttypes.h>
#include <stddef.h>
#include <stdio.h>

// Debian packages QEMU without qemu-plugin.h; this is the part of it that is used here. QEMU takes
// the interface versions of its own range, so bench/run tries one after the other.
struct qemu_plugin_tb;
struct qemu_plugin_insn;
size_t qemu_plugin_tb_n_insns(const struct qemu_plugin_tb *block);
struct qemu_plugin_insn *qemu_plugin_tb_get_insn(const struct qemu_plugin_tb *block, size_t index);
void qemu_plugin_register_vcpu_tb_trans_cb(uint64_t id,
                                           void (*)(uint64_t, struct qemu_plugin_tb *));
void qemu_plugin_register_vcpu_insn_exec_cb(struct qemu_plugin_insn *, void (*)(unsigned, void *),
                                            int flags, void *);
void qemu_plugin_register_atexit_cb(uint64_t id, void (*)(uint64_t, void *), void *);
int qemu_plugin_version = INTERFACE_VERSION;

static uint64_t total;

static void executed(unsigned cpu, void *unused)
{
    (void)cpu;
    (void)unused;
    ++total;
}

static void translated(uint64_t id, struct qemu_plugin_tb *block)
{
    (void)id;
    for (size_t i = 0; i < qemu_plugin_tb_n_insns(block); ++i)
        qemu_plugin_register_vcpu_insn_exec_cb(qemu_plugin_tb_get_insn(block, i), executed, 0,
                                               NULL);
}

static void ended(uint64_t id, void *unused)
{
    (void)id;
    (void)unused;
    fprintf(stderr, "%" PRIu64 "\n", total);
}

int qemu_plugin_install(uint64_t id, const void *info, int count, char **words)
{
    (void)info;
    (void)count;
    (void)words;
    qemu_plugin_register_vcpu_tb_trans_cb(id, translated);
    qemu_plugin_register_atexit_cb(id, ended, NULL);
    return 0;
}
