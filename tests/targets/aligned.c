/* A plugin for the emulator: ends it at the first access that does not lie at a multiple of its size. The emulator would let it pass, a Cortex-M0
 * stops there, and so do many RISC-V cores. Only the emulator's functions that are used are declared, as its interface of version 1 has them. */
#include <stddef.h>
#include <stdint.h>
#include <stdio.h>
#include <unistd.h>

struct qemu_plugin_tb;
struct qemu_plugin_insn;
typedef void on_block(uint64_t id, struct qemu_plugin_tb *block);
typedef void on_access(unsigned processor, uint32_t access, uint64_t address, void *unused);
void qemu_plugin_register_vcpu_tb_trans_cb(uint64_t id, on_block *call);
size_t qemu_plugin_tb_n_insns(const struct qemu_plugin_tb *block);
struct qemu_plugin_insn *qemu_plugin_tb_get_insn(const struct qemu_plugin_tb *block, size_t i);
uint64_t qemu_plugin_insn_vaddr(const struct qemu_plugin_insn *instruction);
void qemu_plugin_register_vcpu_mem_cb(struct qemu_plugin_insn *instruction, on_access *call, int registers, int read_or_write, void *data);
unsigned qemu_plugin_mem_size_shift(uint32_t access);

int qemu_plugin_version = 1;
int qemu_plugin_install(uint64_t id, const void *info, int argc, char **argv);

static void look(unsigned processor, uint32_t access, uint64_t address, void *at) {
  unsigned size = 1u << qemu_plugin_mem_size_shift(access);
  (void)processor;
  if (address % size == 0) return;
  fprintf(stderr, "the instruction at %lx touches %u bytes at %lx\n", (unsigned long)(uintptr_t)at, size, (unsigned long)address);
  _exit(14);
}

static void translate(uint64_t id, struct qemu_plugin_tb *block) {
  (void)id;
  for (size_t i = 0; i < qemu_plugin_tb_n_insns(block); i++) {
    struct qemu_plugin_insn *instruction = qemu_plugin_tb_get_insn(block, i);
    qemu_plugin_register_vcpu_mem_cb(instruction, look, 0, 3, (void *)(uintptr_t)qemu_plugin_insn_vaddr(instruction));
  }
}

int qemu_plugin_install(uint64_t id, const void *info, int argc, char **argv) {
  (void)info; (void)argc; (void)argv;
  qemu_plugin_register_vcpu_tb_trans_cb(id, translate);
  return 0;
}
