# Sizes and names as objects of JSON, one a line; the numbers are those of size and nm of GNU, which the other cases have.
# A value above 2^53 is a text, and a byte that is no UTF-8 is U+FFFD.
# rv: as -o a.o a.s
# rv: size --json a.o a.o
# out is: sizes
# rv: nm --json a.o
# out is: names
# rv: nm --json b.o
# out is: large
# rv: check --json c.s
# status: 1
# out is: faults
# rv: check --json --format=gcc c.s
# status: 2
#--- a.s
.globl _start, v
.option norvc
_start: call f
  ret
.data
v: .dword 1
.bss
.space 24
#--- b.o object
section .text ax 4: 13000000
symbol far global absolute 0x20000000000001
symbol near global absolute 0x20000000000000
#--- c.s
.globl _start
_start: nop
foo
#--- sizes
{"bss":24,"data":8,"file":"a.o","text":12}
{"bss":24,"data":8,"file":"a.o","text":12}
#--- names
{"letter":"T","name":"_start","value":0}
{"letter":"U","name":"f","value":null}
{"letter":"D","name":"v","value":0}
#--- large
{"letter":"A","name":"far","value":"9007199254740993"}
{"letter":"A","name":"near","value":9007199254740992}
#--- faults
{"code":"E6","column":1,"file":"c.s","line":3,"message":"foo is the name of no instruction: a label ends with a colon, foo:","severity":"error"}
