/* A plugin for QEMU's user emulation that counts the instructions a program
   executes. The count depends on the program and its input alone, so it is the
   same on every machine and on every run.

     gcc -shared -fPIC -O2 -o count_instructions.so count_instructions.c
     qemu-x86_64 -plugin ./count_instructions.so program

   It prints `instructions N` on standard error when the program ends. The cost
   of one call is the difference between two runs, one with and one without
   the calls, divided by their number.

   Debian's qemu-user has the plugin interface built in but no header for it,
   so the declarations needed stand here (interface version 1). */
#include <stdbool.h>
#include <stddef.h>
#include <stdint.h>
#include <stdio.h>

typedef uint64_t qemu_plugin_id_t;
struct qemu_plugin_tb;
typedef struct {
    const char *target_name;
    struct {
        int min, cur;
    } version;
    bool system_emulation;
} qemu_info_t;
enum qemu_plugin_op { QEMU_PLUGIN_INLINE_ADD_U64 };

extern void qemu_plugin_register_vcpu_tb_trans_cb(
    qemu_plugin_id_t, void (*)(qemu_plugin_id_t, struct qemu_plugin_tb *));
extern void qemu_plugin_register_vcpu_tb_exec_inline(
    struct qemu_plugin_tb *, enum qemu_plugin_op, void *, uint64_t);
extern size_t qemu_plugin_tb_n_insns(const struct qemu_plugin_tb *);
extern void qemu_plugin_register_atexit_cb(
    qemu_plugin_id_t, void (*)(qemu_plugin_id_t, void *), void *);

int qemu_plugin_version = 1;

static uint64_t executed;

/* A translated block runs from its first instruction to its last, so its
   length is added once each time it is entered. */
static void count_block(qemu_plugin_id_t plugin, struct qemu_plugin_tb *block)
{
    (void)plugin;
    qemu_plugin_register_vcpu_tb_exec_inline(
        block, QEMU_PLUGIN_INLINE_ADD_U64, &executed,
        qemu_plugin_tb_n_insns(block));
}

static void tell(qemu_plugin_id_t plugin, void *nothing)
{
    (void)plugin;
    (void)nothing;
    fprintf(stderr, "instructions %llu\n", (unsigned long long)executed);
}

int qemu_plugin_install(qemu_plugin_id_t plugin, const qemu_info_t *about,
                        int count, char **arguments)
{
    (void)about;
    (void)count;
    (void)arguments;
    qemu_plugin_register_vcpu_tb_trans_cb(plugin, count_block);
    qemu_plugin_register_atexit_cb(plugin, tell, NULL);
    return 0;
}
