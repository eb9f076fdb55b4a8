// A plugin of the emulator that counts the instructions of the program under it, for a machine on which time says
// nothing. A program that writes no bytes to a pipe finds in it the count so far.
//
// Debian's emulator comes without its header, so that what is used of it is declared here.
#include <stdint.h>
#include <stdlib.h>
#include <unistd.h>

struct block;
struct machine;

extern int qemu_plugin_version;
int qemu_plugin_install(uint64_t plugin, const struct machine *machine, int argc, char **argv);

typedef void translated(uint64_t plugin, struct block *block);
typedef void asked(uint64_t plugin, unsigned processor, int64_t number, uint64_t first, uint64_t second, uint64_t third,
                   uint64_t fourth, uint64_t fifth, uint64_t sixth, uint64_t seventh, uint64_t eighth);
void qemu_plugin_register_vcpu_tb_trans_cb(uint64_t plugin, translated *call);
void qemu_plugin_register_vcpu_syscall_cb(uint64_t plugin, asked *call);
uint64_t qemu_plugin_tb_n_insns(const struct block *block);
void qemu_plugin_register_vcpu_tb_exec_inline(struct block *block, int operation, void *number, uint64_t operand);

enum { ADD = 0, WRITE = 1 }; // the emulator's number for adding, and Linux's for write on x86-64

int qemu_plugin_version = 1;

static uint64_t count;

static void add_up(uint64_t plugin, struct block *block)
{
    (void)plugin;
    qemu_plugin_register_vcpu_tb_exec_inline(block, ADD, &count, qemu_plugin_tb_n_insns(block));
}

static void tell(uint64_t plugin, unsigned processor, int64_t number, uint64_t file, uint64_t bytes, uint64_t length,
                 uint64_t fourth, uint64_t fifth, uint64_t sixth, uint64_t seventh, uint64_t eighth)
{
    (void)plugin, (void)processor, (void)bytes, (void)fourth, (void)fifth, (void)sixth, (void)seventh, (void)eighth;
    if (number == WRITE && length == 0 && write((int)file, &count, sizeof count) != sizeof count)
        abort();
}

int qemu_plugin_install(uint64_t plugin, const struct machine *machine, int argc, char **argv)
{
    (void)machine, (void)argc, (void)argv;
    qemu_plugin_register_vcpu_tb_trans_cb(plugin, add_up);
    qemu_plugin_register_vcpu_syscall_cb(plugin, tell);
    return 0;
}
