# Code by which stack/wrong.sh tries stack/frames.py, a case at a time: --defsym CASE=1. What must come of each is in wrong.sh.

    .macro entry
    .globl tarbucket_parse_source
tarbucket_parse_source:
    .endm

    .text

    .ifdef conditional # a tail call under a condition, without relocation
    entry
    test %rdi, %rdi
    jne big
    ret
    .endif

    .ifdef tail # a tail call without relocation, and nothing left of the entry's frame
    entry
    sub $300, %rsp
    add $300, %rsp
    jmp big
    .endif

    .ifdef section # a tail call to a place in another section
    entry
    push %rbx
    call first
    pop %rbx
    jmp second
    .section .text.other, "ax"
first:
    ret
second:
    sub $200, %rsp
    add $200, %rsp
    ret
    .text
    .endif

    .ifdef linked # calls through the linker's table name their function
    entry
    push %rbx
    call *memset@GOTPCREL(%rip)
    pop %rbx
    jmp *memset@GOTPCREL(%rip)
    .endif

    .ifdef minus # as a compiler takes 128 bytes
    entry
    add $-128, %rsp
    call small
    sub $-128, %rsp
    ret
    .endif

    .ifdef lea # as a compiler takes them where flags must stay
    entry
    lea -72(%rsp), %rsp
    call small
    lea 72(%rsp), %rsp
    ret
    .endif

    .ifdef late # the frame comes behind the first jump, and a call behind the return
    entry
    test %rdi, %rdi
    je 2f
    push %rbx
    sub $64, %rsp
    test %rsi, %rsi
    jne 3f
1:  add $64, %rsp
    pop %rbx
2:  ret
3:  call small
    jmp 1b
    .endif

    .ifdef red # below the stack pointer
    entry
    push %rbx
    mov %rdi, -120(%rsp)
    pop %rbx
    ret
    .endif

    .ifdef table # blocks that only the table reaches, behind a return
    entry
    sub $24, %rsp
    lea offsets(%rip), %rdx
    movslq (%rdx,%rdi,4), %rax
    add %rdx, %rax
    mov %rsi, %rcx
    jmp *%rax
1:  add $24, %rsp
    ret
2:  call small
    jmp 1b
    .section .rodata
offsets:
    .long 1b - offsets
    .long 2b - offsets
    .text
    .endif

    .ifdef two # tables at two depths
    entry
    lea (%rip), %rdx
    movslq (%rdx,%rdi,4), %rax
    add %rdx, %rax
    jmp *%rax
    push %rbx
    movslq (%rdx,%rsi,4), %rax
    add %rdx, %rax
    jmp *%rax
    .endif

    .ifdef pointer # no table
    entry
    mov (%rdi), %rax
    jmp *%rax
    .endif

    .ifdef overwritten # not what came of the table
    entry
    movslq (%rdx,%rdi,4), %rax
    add %rdx, %rax
    mov (%rdi), %rax
    jmp *%rax
    .endif

    .ifdef register
    entry
    push %rbx
    call *%rax
    pop %rbx
    ret
    .endif

    .ifdef leave
    entry
    push %rbp
    leave
    ret
    .endif

    .ifdef based # a frame pointer
    entry
    push %rbp
    mov %rsp, %rbp
    pop %rbp
    ret
    .endif

    .ifdef aligned
    entry
    and $-64, %rsp
    ret
    .endif

    .ifdef half # 2 bytes
    entry
    push %ax
    pop %ax
    ret
    .endif

    .ifdef depths
    entry
    test %rdi, %rdi
    je 1f
    push %rbx
1:  nop
    ret
    .endif

    .ifdef return
    entry
    push %rbx
    ret
    .endif

    .ifdef kept # a jump out of a function whose frame is still there
    entry
    push %rbx
    jmp big
    .endif

    .ifdef middle
    entry
    jmp big + 7
    .endif

    .ifdef dead
    entry
    ret
    mov %rdi, %rax
    ret
    .endif

    .ifdef past
    entry
    call small
    .endif

    .ifdef away
    entry
    jmp elsewhere
    .endif

    .ifdef alone # no other entry
    entry
    ret
    .endif

    .ifdef twice # two symbols, one name
    entry
    jmp _ZN1a1b17h0123456789abcdefE
_ZN1a1b17h0123456789abcdefE:
    ret
_ZN1a1b17hfedcba9876543210E:
    ret
    .endif

    .ifdef shares # seven calls for an E
    entry
    ret
    .globl tarbucket_write_source
tarbucket_write_source:
    call _ZN11writer_expr8put_expr17h0123456789abcdefE
    ret
_ZN11writer_expr8put_expr17h0123456789abcdefE:
    push %rbx
    call _ZN11writer_expr8put_expr17h0123456789abcdefE
    pop %rbx
    ret
    .endif

    .ifdef members # one call for an E, where another function stands between
    entry
    ret
    .globl tarbucket_write_source
tarbucket_write_source:
    call _ZN11writer_expr8put_expr17h0123456789abcdefE
    ret
_ZN11writer_expr8put_expr17h0123456789abcdefE:
    push %rbx
    call members_of
    pop %rbx
    ret
members_of:
    call _ZN11writer_expr8put_expr17h0123456789abcdefE
    ret
    .endif

    .ifdef blocks # two calls for a Block, and two in none
    entry
    ret
    .globl tarbucket_write_source
tarbucket_write_source:
    call _ZN11writer_stmt8put_line17h0123456789abcdefE
    ret
_ZN11writer_stmt8put_line17h0123456789abcdefE:
    push %rbx
    call _ZN11writer_stmt8put_line17h0123456789abcdefE
    pop %rbx
    ret
    .endif

    .ifdef within # it may open no E
    entry
    ret
    .globl tarbucket_write_source
tarbucket_write_source:
    call _ZN11writer_expr4step17h0123456789abcdefE
    ret
_ZN11writer_expr4step17h0123456789abcdefE:
    call _ZN11writer_expr8put_expr17h0123456789abcdefE
    ret
_ZN11writer_expr8put_expr17h0123456789abcdefE:
    call _ZN11writer_expr4step17h0123456789abcdefE
    ret
    .endif

big:
    sub $1000, %rsp
    add $1000, %rsp
    ret
small:
    ret

    .ifndef alone # the other entries, which frames.py wants as well
    .globl tarbucket_utf8_error
tarbucket_utf8_error:
    ret
    .endif
    .ifndef tarbucket_write_source
    .globl tarbucket_write_source
tarbucket_write_source:
    ret
    .endif

    .section .note.GNU-stack, "", @progbits
