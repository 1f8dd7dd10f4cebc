# `_start: call f`, twice more, `li a7, 93`, `ecall`, and `f: ret`: jal ra for each call, or auipc ra and jalr ra. By
# hand.
# rv: ld -o exe --map map a.o
# text: ef004001 ef000001 ef00c000 9308d005 73000000 8280
# rv: ld -o exe --map map --no-relax a.o
# text: 97000000 e7800002 97000000 e7808001 97000000 e7800001 9308d005 73000000 8280
#--- a.o object
section .text ax 2: 97000000 e7800000 97000000 e7800000 97000000 e7800000 9308d005 73000000 8280
reloc 0 CALL_PLT f
reloc 0 RELAX
reloc 8 CALL_PLT f
reloc 8 RELAX
reloc 16 CALL_PLT f
reloc 16 RELAX
symbol _start global 1 0
symbol f global 1 32
