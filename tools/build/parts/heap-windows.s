# SPDX-License-Identifier: MIT OR Apache-2.0
# include/heap.c for Windows on x86-64, where C returns a struct of 16 bytes through memory: the proved functions expect the pair
# in rax and rdx.
    .globl rattle_alloc, rattle_realloc, rattle_dealloc
    .text
rattle_alloc:
    sub $40, %rsp
    test %rcx, %rcx
    cmove %rdx, %rcx
    call malloc
    jmp pair
rattle_realloc:
    sub $40, %rsp
    mov %r8, %rdx
    test %rdx, %rdx
    cmove %r9, %rdx
    call realloc
pair:
    add $40, %rsp
    mov %rax, %rdx
    xor %ecx, %ecx
    test %rax, %rax
    setne %cl
    lea nothing(%rip), %r8
    cmove %r8, %rdx
    mov %rcx, %rax
    ret
rattle_dealloc:
    jmp free
    .bss
nothing:
    .byte 0
