# Below the line of a fault of a link, where --explain asks for it: the references to a name, its definitions, the place of a value
# with its symbol and distance. The objects of rv have lines of their sources.
# rv: ld --explain -o exe undefined.o
# status: 1
# out:
# errors is: undefined
# rv: as -o far.o far.s
# rv: ld --explain -o exe far.o
# status: 1
# errors is: far
# rv: as -o meant.o meant.s
# rv: as -o print.o print.s
# rv: ld --explain -o exe meant.o print.o
# status: 1
# errors is: meant
# rv: as -o one.o one.s
# rv: as -o other.o other.s
# rv: ld --explain --map m -o exe one.o other.o
# status: 1
# errors is: duplicate
# rv: ld --explain -o exe odd.o
# status: 1
# errors is: odd
# rv: ld --explain --gc-sections -o exe odd.o
# status: 1
# errors is: odd
# rv: ld --explain -o exe large.o
# status: 1
# errors is: large
# rv: ld -o exe large.o
# status: 1
# errors: rv: L1 Overflow\n
# rv: ld --explain -o exe low.o
# status: 1
# errors is: low
#--- undefined.o object
section .text ax 2: 97000000 e7800000 8280
reloc 0 CALL_PLT f
reloc 0 RELAX
symbol _start global 1 0
symbol f global undefined 0
#--- far.s
.globl _start
nop
_start: call f
#--- meant.s
.globl _start
_start: call print_nubmer
#--- print.s
.globl print_number, print_numbers
print: nop
print_number: ret
print_numbers: ret
#--- one.s
.globl _start, f
_start: nop
f: ret
#--- other.s
.globl f
f: ret
#--- odd.o object
section .text ax 2: 6f000000 8280
reloc 0 JAL _start+1
symbol _start global 1 0
#--- large.o object
section .text ax 2: 8280
section .data wa 4: 0000000000000000
reloc 4 32 _start+0x100000000
symbol _start global 1 0
#--- low.o object
section .text ax 2: 13050500 8280
reloc 0 PCREL_LO12_I _start
symbol _start global 1 0
#--- undefined
rv: L5 Undefined f
  undefined.o: .text+0x0
  the name means nothing here: a source has to define it in a loaded section, with .globl
#--- far
rv: L5 Undefined f
  far.o: .text+0x2, line 3 of its source
  the name means nothing here: a source has to define it in a loaded section, with .globl
#--- meant
rv: L5 Undefined print_nubmer
  meant.o: .text+0x0, line 2 of its source
  the name means nothing here: a source has to define it in a loaded section, with .globl; print_number in print.o is spelt almost so
#--- duplicate
rv: L6 Duplicate f
  one.o: .text+0x2, line 3 of its source
  other.o: .text+0x0, line 2 of its source
  one source alone may make a name global and define it; .weak in one gives way
#--- odd
rv: L2 OddTarget
  odd.o: .text+0x0
  _start+0x1 is at 0x10001, at a distance of 1 from here, 0x10000; instructions stand at even addresses
#--- large
rv: L1 Overflow
  large.o: .data+0x4
  _start+0x100000000 is 0x100010000; four bytes take -2147483648 to 4294967295
#--- low
rv: L3 DanglingPcrel
  low.o: .text+0x0
  %pcrel_lo names a label at which there is no %pcrel_hi
