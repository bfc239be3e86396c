; A function whose frame is told in DWARF alone: its entry in __eh_frame has differences of places.
    .section __TEXT,__text,regular,pure_instructions
    .globl _scaled
    .p2align 2
_scaled:
    .cfi_startproc
    mov x9, sp
    .cfi_def_cfa w9, 0
    .cfi_escape 0x2e, 0x00
    sub sp, sp, #16
    str w0, [sp]
    ldr w8, [sp]
    add w0, w8, w8, lsl #1
    mov sp, x9
    .cfi_def_cfa wsp, 0
    ret
    .cfi_endproc
    .section __TEXT,__const
    .p2align 3
_lengths:
    .quad _scaled_end - _scaled
    .long _scaled_end - _scaled
    .long 0
    .section __TEXT,__text,regular,pure_instructions
_scaled_end:
    .subsections_via_symbols
