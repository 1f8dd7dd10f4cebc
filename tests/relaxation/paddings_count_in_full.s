# 14 bytes, `tail g`, `tail f`, 2040 bytes, `g:`, `.align 4` and `f:`. Neither tail reaches in two bytes over the
# whole padding, so both have four, also where the padding comes to be of two bytes. By hand.
# map: global f 10810
#--- a.o object
rvc
section .text ax 2: {{14 * 00}} 17030000 67000300 17030000 67000300 {{2054 * 00}} 9308d005 73000000
reloc 14 CALL_PLT g
reloc 14 RELAX
reloc 22 CALL_PLT f
reloc 22 RELAX
reloc 2070 ALIGN +14
symbol _start global 1 0
symbol f global 1 2084
symbol g global 1 2070
