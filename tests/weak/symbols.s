# Weak definitions stand among the global ones, and weak names without one among the undefined, by the gABI's "Symbol
# Table": binding 2. A weak name that nothing refers to is not there. The symbols: none, the place of `la`, `a`, `b`, `u`.
# section .symtab: 0000000000000000 0000000000000000 0000000000000000 0000000000000100 0200000000000000 0000000000000000 0100000020000100 0000000000000000 0000000000000000 0300000010000100 0000000000000000 0000000000000000 0500000020000000 0000000000000000 0000000000000000
# section .strtab: 00610062007500
.weak a, u, unused
.globl b
a: b: nop
la a0, u
