#include "painted.h"
#include <string.h>

enum { PAINT = 0xa5 };

/* Makes the call with the arguments on the stack that ends at `end`. The registers are put there. */
uint32_t on_stack(uint8_t *end, void (*call)(void), const uint64_t arguments[6]);
__asm__(".globl on_stack\n"
        "on_stack:\n"
        "pushq %rbp\n pushq %rbx\n movq %rsp, %rbp\n movq %rdi, %rbx\n movq %rdi, %rsp\n"
        "movq %rsi, %r11\n movq %rdx, %r10\n"
        "movq (%r10), %rdi\n movq 8(%r10), %rsi\n movq 16(%r10), %rdx\n"
        "movq 24(%r10), %rcx\n movq 32(%r10), %r8\n movq 40(%r10), %r9\n"
        ".irp n, 0,1,2,3,4,5,6,7,8,9,10,11,12,13,14,15\n pxor %xmm\\n, %xmm\\n\n .endr\n"
        "callq *%r11\n"
        "movq %rax, (%rbx)\n movq %rcx, 8(%rbx)\n movq %rdx, 16(%rbx)\n movq %rsi, 24(%rbx)\n movq %rdi, 32(%rbx)\n"
        ".irp n, 8,9,10,11\n movq %r\\n, 8*(\\n-3)(%rbx)\n .endr\n"
        ".irp n, 0,1,2,3,4,5,6,7,8,9,10,11,12,13,14,15\n movups %xmm\\n, 72+16*\\n(%rbx)\n .endr\n"
        "movq %rbp, %rsp\n popq %rbx\n popq %rbp\n ret\n");

uint32_t on_painted_stack(struct left *left, void (*call)(void), const uint64_t arguments[6]) {
    memset(left->stack, PAINT, sizeof left->stack);
    return on_stack(left->stack + sizeof left->stack, call, arguments);
}

size_t stack_taken(const struct left *left) {
    size_t at = 0;
    while (at < sizeof left->stack && left->stack[at] == PAINT)
        at++;
    return sizeof left->stack - at;
}
