# ___chkstk_ms, which LLVM calls on x86-64 Windows where a function has more than a page of variables: touches each page of
# the rax bytes below the caller's stack in turn, so that the system makes them. No register changes.
    .text
    .globl ___chkstk_ms
    .seh_proc ___chkstk_ms
___chkstk_ms:
    pushq %rcx
    .seh_pushreg %rcx
    pushq %rax
    .seh_pushreg %rax
    .seh_endprologue
    leaq 24(%rsp), %rcx
1:  cmpq $4096, %rax
    jbe 2f
    subq $4096, %rcx
    orb $0, (%rcx)
    subq $4096, %rax
    jmp 1b
2:  subq %rax, %rcx
    orb $0, (%rcx)
    popq %rax
    popq %rcx
    ret
    .seh_endproc
