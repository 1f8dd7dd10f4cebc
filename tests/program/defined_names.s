# Names that the words of a link define. The bytes are those of GNU ld with the same words.
# rv: build --defsym size=0x12345 --defsym device=0x10100 --defsym twice=size*2 -o exe --map map a.s
# text: 37250100 13055534 97050000 9385850f 37460200 1306a668 9308d005 73000000
# data: 4523010000000000 0001010000000000
# map: global size 12345
# map: global device 10100
# map: global twice 2468a
# rv: run exe
# status: 69
# rv: map --defsym size=0x12345 --defsym device=0x10100 --defsym twice=size*2 a.s
# out is: map
# rv: as -o a.o a.s
# rv: ld --defsym size=0x12345 --defsym device=0x10100 --defsym twice=size*2 -o linked --map linked.map a.o
# same: exe linked
# same: map linked.map
# A member that would define such a name is not taken, neither in a group.
# rv: as -o b.o b.s
# rv: as -o f.o f.s
# archive: libf.a f.o
# rv: ld --defsym f=0x10000 -o without b.o
# rv: ld --defsym f=0x10000 -o with b.o --library libf.a
# same: with without
# rv: ld --defsym f=0x10000 -o grouped b.o --start-group --library libf.a --end-group
# same: grouped without
# rv: build --defsym f=0x10000 -o built b.s --library libf.a
# same: built without
# A value may use global names of the program. The bytes are those of GNU ld with -Ttext=0x10000 -Tdata=0x11000.
# rv: build --defsym heap=_end+0x18 --defsym top=heap+(64*66) -o exe --map map c.s
# text: 37150100 13050503 97250000 9385850a 3385a540 19819308 d0057300 0000
# data: 3010010000000000 b020010000000000 1810010000000000
# map: global heap 11030
# map: global top 120b0
# rv: run exe
# status: 66
# rv: map --defsym heap=_end+0x18 --defsym top=heap+(64*66) c.s
# out is: map
# rv: as -o c.o c.s
# rv: ld --defsym heap=_end+0x18 --defsym top=heap+(64*66) -o linked --map linked.map c.o
# same: exe linked
# same: map linked.map
# rv: build --defsym heap=nowhere --defsym top=1 -o exe c.s
# status: 1
# error: rv: --defsym: the program has no global name nowhere
# What is no definition is named.
# rv: build --defsym size -o exe a.s
# status: 1
# error: rv: --defsym size: a definition is NAME=N, with N of numbers, of names that were defined so before it, and of global names of the program
# rv: build --defsym size=1;.text -o exe a.s
# status: 1
# error: rv: --defsym size=1;.text: a definition is NAME=N, with N of numbers, of names that were defined so before it, and of global names of the program
#--- a.s
.globl _start
_start: lui a0, %hi(size)
  addi a0, a0, %lo(size)
  la a1, device
  lui a2, %hi(twice)
  addi a2, a2, %lo(twice)
  li a7, 93
  ecall
.data
  .8byte size, device
#--- b.s
.globl _start
_start: call f
#--- f.s
.globl f
f: li a0, 1
  ret
#--- c.s
.option norelax
.globl _start
_start: lui a0, %hi(heap)
  addi a0, a0, %lo(heap)
  la a1, top
  sub a0, a1, a0
  srli a0, a0, 6
  li a7, 93
  ecall
.data
  .8byte heap, top, _end
