! The start of a program over newlib: its arguments, main, and exit with what main returns.
! At entry %sp + 64 has argc, and then the arguments' addresses, a zero word, and an empty environment.

        .register %g2, #scratch
        .register %g3, #scratch

        .section ".text"
        .global _start
        .type   _start, #function
_start:
        mov     0, %fp
        ld      [%sp + 64], %o0
        add     %sp, 68, %o1
        sll     %o0, 2, %o2
        add     %o1, %o2, %o2
        add     %o2, 4, %o2             ! the environment begins behind the zero word
        sethi   %hi(environ), %g1
        st      %o2, [%g1 + %lo(environ)]
        call    main
         sub    %sp, 32, %sp
        call    exit
         nop
        unimp   0
        .size   _start, . - _start

! int system_call(int number, int a, int b, int c): what the system answers, or minus its error number.

        .global system_call
        .type   system_call, #function
system_call:
        mov     %o0, %g1
        mov     %o1, %o0
        mov     %o2, %o1
        mov     %o3, %o2
        ta      0x10
        bcs,a   1f
         sub    %g0, %o0, %o0
1:      retl
         nop
        .size   system_call, . - system_call
