# `_start: a: call f`, `b:`, `f: ret`, and in the data `.dword b - a`, which counts the call as it is then. By hand.
# rv: ld -o exe --map map a.o
# text: ef004000 8280
# data: 04000000 00000000
# rv: ld -o exe --map map --no-relax a.o
# text: 97000000 e7808000 8280
# data: 08000000 00000000
#--- a.o object
section .text ax 2: 97000000 e7800000 8280
reloc 0 CALL_PLT f
reloc 0 RELAX
section .data wa 8: 00000000 00000000
reloc 0 ADD64 f
reloc 0 SUB64 _start
symbol _start global 1 0
symbol f global 1 8
