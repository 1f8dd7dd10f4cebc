# A section has the greatest of its alignments, and one of code 2 at least, also where it is empty. So has `.text` of GNU
# as (GNU Binutils 2.40, `-march=rv64imac`, with `.option norvc` too); its other sections of code have 1 without more.
# alignment .text: 2
# alignment .text.word: 2
# alignment .text.empty: 2
# alignment .text.more: 16
# alignment tool: 2
# alignment .data: 1
# alignment .rodata: 8
# alignment .bss: 1
.section .text.word, "ax"
.option norvc
.balign 1
nop
.section .text.empty, "ax"
.section .text.more
.align 4
.align 1
.section tool, "x"
.option rvc
nop
.data
.byte 1
.section .rodata
.balign 8
.bss
.zero 3
