/*
 * counter.c - callgrind's part where the machine is no x86-64: a plugin of qemu-x86_64 that does what bench.c asks of callgrind, which is to
 * begin at zero and to dump the count under a label. Of each dump it prints the two lines of callgrind's that tables.py reads.
 *
 *     qemu-x86_64 -cpu max -plugin ./counter.so ./bench count
 *
 * Its numbers can be held against callgrind's: the program is the same, with the same requests in the same places, and each instruction that
 * is executed counts one, under `rep` one each turn, as with callgrind. -cpu max has AVX2, as a PC has under valgrind, so that glibc takes the
 * same memset. What may differ is where its memory lies, and so a turn of memset's loop, which is 7 instructions.
 *
 * A request stands in the program as valgrind's header has it: six words are stored, the request's number and its arguments, and then come
 * instructions that do nothing, the last `xchg %rbx,%rbx`. The words' address is in a register, which plugins cannot read; but the words are
 * volatile, so that the last store before that instruction is the sixth word's.
 */
#include <inttypes.h>
#include <stdio.h>
#include <string.h>
#include <unistd.h>
#include <valgrind/callgrind.h>

/* ---------------------------------------------------------------- of qemu 7.2's plugin interface, whose header no Debian package has */

struct qemu_plugin_tb;   /* a block of instructions that is translated */
struct qemu_plugin_insn; /* an instruction of it */

enum { ADD = 0, NO_REGISTERS = 0, WRITES = 2 };

void qemu_plugin_register_vcpu_tb_trans_cb(uint64_t id, void (*call)(uint64_t id, struct qemu_plugin_tb *block));
size_t qemu_plugin_tb_n_insns(const struct qemu_plugin_tb *block);
struct qemu_plugin_insn *qemu_plugin_tb_get_insn(const struct qemu_plugin_tb *block, size_t index);

const void *qemu_plugin_insn_data(const struct qemu_plugin_insn *of);
size_t qemu_plugin_insn_size(const struct qemu_plugin_insn *of);
uint64_t qemu_plugin_insn_vaddr(const struct qemu_plugin_insn *of); /* where the program has it */
void *qemu_plugin_insn_haddr(const struct qemu_plugin_insn *of);    /* and where qemu has it */

void qemu_plugin_register_vcpu_insn_exec_inline(struct qemu_plugin_insn *of, int what, void *number, uint64_t by);
void qemu_plugin_register_vcpu_insn_exec_cb(struct qemu_plugin_insn *of, void (*call)(unsigned cpu, void *data), int registers, void *data);
void qemu_plugin_register_vcpu_mem_cb(struct qemu_plugin_insn *of, void (*call)(unsigned cpu, uint32_t info, uint64_t address, void *data),
                                      int registers, int which, void *data);

int qemu_plugin_version = 1;
int qemu_plugin_install(uint64_t id, const void *info, int argc, char **argv);

/* ---------------------------------------------------------------- counting */

static uint64_t executed;    /* instructions since the count was last zero */
static uint64_t last_stored; /* the address of the last store */
static const char *memory;   /* where qemu has the program's address 0 */

static void on_store(unsigned cpu, uint32_t info, uint64_t address, void *data)
{
    (void)cpu, (void)info, (void)data;
    last_stored = address;
}

static void on_request(unsigned cpu, void *data)
{
    (void)cpu, (void)data;
    const uint64_t *words = (const uint64_t *)(memory + last_stored) - 5;
    switch (words[0]) {
    case VG_USERREQ__ZERO_STATS:
        executed = 0;
        break;
    case VG_USERREQ__DUMP_STATS_AT:
        dprintf(STDOUT_FILENO, "desc: Trigger: Client Request: %s\nsummary: %" PRIu64 "\n", memory + words[1], executed);
        break;
    default:
        dprintf(STDERR_FILENO, "counter: %" PRIx64 " is no request that is known here\n", words[0]);
        _exit(1);
    }
}

static void on_translation(uint64_t id, struct qemu_plugin_tb *block)
{
    static const uint8_t request[] = {0x48, 0x87, 0xDB};
    (void)id;
    for (size_t i = 0; i < qemu_plugin_tb_n_insns(block); i++) {
        struct qemu_plugin_insn *each = qemu_plugin_tb_get_insn(block, i);
        memory = (const char *)qemu_plugin_insn_haddr(each) - qemu_plugin_insn_vaddr(each);
        qemu_plugin_register_vcpu_insn_exec_inline(each, ADD, &executed, 1);
        qemu_plugin_register_vcpu_mem_cb(each, on_store, NO_REGISTERS, WRITES, NULL);
        if (qemu_plugin_insn_size(each) == sizeof request && memcmp(qemu_plugin_insn_data(each), request, sizeof request) == 0)
            qemu_plugin_register_vcpu_insn_exec_cb(each, on_request, NO_REGISTERS, NULL);
    }
}

int qemu_plugin_install(uint64_t id, const void *info, int argc, char **argv)
{
    (void)info, (void)argc, (void)argv;
    qemu_plugin_register_vcpu_tb_trans_cb(id, on_translation);
    return 0;
}
