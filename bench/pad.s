# Code that nobody runs: what is linked behind it starts PAD bytes behind a multiple of 64.
        .text
        .p2align 6
        .skip   PAD, 0x90
        .section .note.GNU-stack, "", @progbits
