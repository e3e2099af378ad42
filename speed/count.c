/* A plugin of QEMU that counts the instructions a program executes and prints their number on standard error when it
   ends; with the argument each=on a line for every instruction, its address and how often it ran. Debian ships no header
   for plugins, so what is used of the interface (version 1) is declared here. */
#include <inttypes.h>
#include <stdio.h>
#include <stdlib.h>
#include <string.h>

typedef uint64_t plugin_id;
struct qemu_plugin_tb;
struct qemu_plugin_insn;
enum { ADD_U64 = 0 };

void qemu_plugin_register_vcpu_tb_trans_cb(plugin_id id, void (*call)(plugin_id, struct qemu_plugin_tb *));
size_t qemu_plugin_tb_n_insns(const struct qemu_plugin_tb *block);
struct qemu_plugin_insn *qemu_plugin_tb_get_insn(const struct qemu_plugin_tb *block, size_t at);
uint64_t qemu_plugin_insn_vaddr(const struct qemu_plugin_insn *one);
void qemu_plugin_register_vcpu_insn_exec_inline(struct qemu_plugin_insn *one, int operation, void *number, uint64_t by);
void qemu_plugin_register_atexit_cb(plugin_id id, void (*call)(plugin_id, void *), void *data);

int qemu_plugin_version = 1;

/* One thread runs, so one number is enough for an instruction. It is found by its address, at which no instruction is 0,
   so that one that is translated again goes on with its number. */
enum { BITS = 20, PLACES = 1 << BITS };
static struct {
    uint64_t address, executed;
} places[PLACES];
static size_t used;
static int each;

static uint64_t *number_of(uint64_t address)
{
    size_t at = address * UINT64_C(0x9E3779B97F4A7C15) >> (64 - BITS);

    while (places[at].address && places[at].address != address)
        at = (at + 1) % PLACES;
    if (!places[at].address && ++used == PLACES) {
        fprintf(stderr, "count.c: the program has more than %d instructions\n", PLACES - 1);
        exit(2);
    }
    places[at].address = address;
    return &places[at].executed;
}

/* Asked once for each block when it is translated; an addition is made each time an instruction of it runs. One addition
   for the whole block would be quicker, but an instruction across the end of a page is taken back and begins the next
   block, so that it would count twice, and the count would depend on where the linker puts the code. */
static void translated(plugin_id id, struct qemu_plugin_tb *block)
{
    size_t at, count = qemu_plugin_tb_n_insns(block);

    (void)id;
    for (at = 0; at < count; at++) {
        struct qemu_plugin_insn *one = qemu_plugin_tb_get_insn(block, at);

        qemu_plugin_register_vcpu_insn_exec_inline(one, ADD_U64, number_of(qemu_plugin_insn_vaddr(one)), 1);
    }
}

static void ended(plugin_id id, void *data)
{
    uint64_t all = 0;
    size_t at;

    (void)id;
    (void)data;
    for (at = 0; at < PLACES; at++) {
        all += places[at].executed;
        if (each && places[at].executed)
            fprintf(stderr, "at %" PRIx64 " %" PRIu64 "\n", places[at].address, places[at].executed);
    }
    fprintf(stderr, "instructions %" PRIu64 "\n", all);
}

int qemu_plugin_install(plugin_id id, const void *about_qemu, int count, char **arguments)
{
    (void)about_qemu;
    each = count == 1 && strcmp(arguments[0], "each=on") == 0;
    qemu_plugin_register_vcpu_tb_trans_cb(id, translated);
    qemu_plugin_register_atexit_cb(id, ended, NULL);
    return 0;
}
