! The start of a program: its arguments, main, and exit with what main returns.
! At entry %sp + 64 has argc, and then the arguments' addresses.

        .section ".text"
        .global _start
        .type   _start, #function
_start:
        mov     0, %fp
        ld      [%sp + 64], %o0
        add     %sp, 68, %o1
        call    main
         sub    %sp, 32, %sp
        mov     1, %g1
        ta      0x10
        unimp   0

! int system_call(int number, int a, int b, int c): what the system answers, or minus its error number.

        .global system_call
        .type   system_call, #function
system_call:
        mov     %o0, %g1
        mov     %o1, %o0
        mov     %o2, %o1
        mov     %o3, %o2
        ta      0x10
        bcc     1f
         nop
        sub     %g0, %o0, %o0
1:      retl
         nop
