/* What C cannot say, for each target: the start, a system call, and a call of sleep_plan on another stack. */
#ifndef MACHINE_H
#define MACHINE_H
#include <stdint.h>

/* The arguments of sleep_plan, in its order. */
struct arguments { const uint8_t *list; size_t list_len; uint8_t *table; size_t table_len; uint8_t *block; size_t block_len; };

long system_call(long number, long a, long b, long c, long d, long e, long f);
uint32_t call_on_stack(const struct arguments *arguments, void *top);

/* What run returns is the program's exit status. */
int run(void);

#if defined __arm__

enum { READ = 3, WRITE = 4, MAP = 192, PROTECT = 125, EXIT = 1 };

/* Instructions of a Cortex-M0 only. */
#ifndef BOARD
__asm__(".text\n"
        ".syntax unified\n"
        ".thumb\n"
        ".globl _start, system_call\n"
        ".thumb_func\n"
        "_start:\n"
        "  bl run\n"
        "  movs r7, #1\n"
        "  svc 0\n"
        ".thumb_func\n"
        "system_call:\n"
        "  push {r4-r7, lr}\n"
        "  mov r7, r0\n"
        "  mov r0, r1\n"
        "  mov r1, r2\n"
        "  mov r2, r3\n"
        "  ldr r3, [sp, #20]\n"
        "  ldr r4, [sp, #24]\n"
        "  ldr r5, [sp, #28]\n"
        "  svc 0\n"
        "  pop {r4-r7, pc}\n");
#endif

/* The fifth and sixth argument are passed on the stack. */
__asm__(".text\n"
        ".syntax unified\n"
        ".thumb\n"
        ".globl call_on_stack\n"
        ".thumb_func\n"
        "call_on_stack:\n"
        "  push {r4, lr}\n"
        "  mov r4, sp\n"
        "  subs r1, #8\n"
        "  mov sp, r1\n"
        "  ldr r2, [r0, #16]\n"
        "  ldr r3, [r0, #20]\n"
        "  str r2, [sp]\n"
        "  str r3, [sp, #4]\n"
        "  ldr r1, [r0, #4]\n"
        "  ldr r2, [r0, #8]\n"
        "  ldr r3, [r0, #12]\n"
        "  ldr r0, [r0]\n"
        "  bl sleep_plan\n"
        "  mov sp, r4\n"
        "  pop {r4, pc}\n");

#elif defined __riscv

enum { READ = 63, WRITE = 64, MAP = 222, PROTECT = 226, EXIT = 93 };

__asm__(".text\n"
        ".globl _start, system_call, call_on_stack\n"
        "_start:\n"
        "  call run\n"
        "  li a7, 93\n"
        "  ecall\n"
        "system_call:\n"
        "  mv a7, a0\n"
        "  mv a0, a1\n"
        "  mv a1, a2\n"
        "  mv a2, a3\n"
        "  mv a3, a4\n"
        "  mv a4, a5\n"
        "  mv a5, a6\n"
        "  ecall\n"
        "  ret\n"
        "call_on_stack:\n"
        "  addi sp, sp, -16\n"
        "  sw ra, 12(sp)\n"
        "  sw s0, 8(sp)\n"
        "  mv s0, sp\n"
        "  mv sp, a1\n"
        "  lw a1, 4(a0)\n"
        "  lw a2, 8(a0)\n"
        "  lw a3, 12(a0)\n"
        "  lw a4, 16(a0)\n"
        "  lw a5, 20(a0)\n"
        "  lw a0, 0(a0)\n"
        "  call sleep_plan\n"
        "  mv sp, s0\n"
        "  lw s0, 8(sp)\n"
        "  lw ra, 12(sp)\n"
        "  addi sp, sp, 16\n"
        "  ret\n");

#elif defined __aarch64__

enum { READ = 63, WRITE = 64, MAP = 222, PROTECT = 226, EXIT = 93 };

__asm__(".text\n"
        ".globl _start, system_call, call_on_stack\n"
        "_start:\n"
        "  bl run\n"
        "  mov x8, 93\n"
        "  svc 0\n"
        "system_call:\n"
        "  mov x8, x0\n"
        "  mov x0, x1\n"
        "  mov x1, x2\n"
        "  mov x2, x3\n"
        "  mov x3, x4\n"
        "  mov x4, x5\n"
        "  mov x5, x6\n"
        "  svc 0\n"
        "  ret\n"
        "call_on_stack:\n"
        "  stp x19, x30, [sp, -16]!\n"
        "  mov x19, sp\n"
        "  mov sp, x1\n"
        "  ldp x4, x5, [x0, 32]\n"
        "  ldp x2, x3, [x0, 16]\n"
        "  ldp x0, x1, [x0]\n"
        "  bl sleep_plan\n"
        "  mov sp, x19\n"
        "  ldp x19, x30, [sp], 16\n"
        "  ret\n");

#elif defined __x86_64__

enum { READ = 0, WRITE = 1, MAP = 9, PROTECT = 10, EXIT = 60 };

/* The stack pointer is a multiple of 16 where a call is made. */
__asm__(".text\n"
        ".globl _start, system_call, call_on_stack\n"
        "_start:\n"
        "  call run\n"
        "  mov %eax, %edi\n"
        "  mov $60, %eax\n"
        "  syscall\n"
        "system_call:\n"
        "  mov %rdi, %rax\n"
        "  mov %rsi, %rdi\n"
        "  mov %rdx, %rsi\n"
        "  mov %rcx, %rdx\n"
        "  mov %r8, %r10\n"
        "  mov %r9, %r8\n"
        "  mov 8(%rsp), %r9\n"
        "  syscall\n"
        "  ret\n"
        "call_on_stack:\n"
        "  push %rbx\n"
        "  mov %rsp, %rbx\n"
        "  mov %rsi, %rsp\n"
        "  mov %rdi, %rax\n"
        "  mov (%rax), %rdi\n"
        "  mov 8(%rax), %rsi\n"
        "  mov 16(%rax), %rdx\n"
        "  mov 24(%rax), %rcx\n"
        "  mov 32(%rax), %r8\n"
        "  mov 40(%rax), %r9\n"
        "  call sleep_plan\n"
        "  mov %rbx, %rsp\n"
        "  pop %rbx\n"
        "  ret\n");

#else
#error "no such target"
#endif

#endif
