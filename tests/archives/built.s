# A build with archives reads all files before it assembles one, and --explain shows the statements of its sources, as without
# archives, and the places of members.
# rv: as -o f.o f.s
# rv: as -o g.o g.s
# archive: lib.a f.o g.o
# rv: build -o exe bad.s missing.s --library lib.a
# fault: missing.s: cannot read
# rv: build -o exe bad.s --library missing.a
# fault: missing.a: cannot read
# rv: build -o exe bad.s -L . -l missing
# fault: cannot find -lmissing
# rv: build -o exe good.s bad.s --library lib.a
# fault: bad.s:2: E6 UnknownMnemonic
# rv: build --explain -o exe undefined.s
# status: 1
# errors is: undefined
# rv: build --explain -o exe undefined.s --library lib.a
# status: 1
# errors is: undefined
# rv: build --explain -o exe asks.s --library lib.a
# status: 1
# errors is: asks
# rv: build --explain -o exe twice.s --library lib.a
# status: 1
# errors is: twice
# rv: build --explain -o exe unnamed.s --library lib.a
# status: 1
# errors is: unnamed
# rv: build --explain -o exe needs_g.s --library lib.a
# status: 1
# errors is: needs_g
# rv: build -o exe good.s --library lib.a
# rv: run exe
# exit: 7
#--- bad.s
.globl _start
_start: nonsense
#--- good.s
.globl _start
_start: call f
li a7, 93
ecall
#--- undefined.s
.globl _start
_start: call nowhere
#--- undefined
rv: L5 Undefined nowhere
  undefined.s:2:
    _start: call nowhere
                 ^^^^^^^
  the name means nothing here: a source has to define it in a loaded section, with .globl
#--- asks.s
.globl _start
_start: call elsewhere
call g
#--- asks
rv: L5 Undefined elsewhere
  asks.s:2:
    _start: call elsewhere
                 ^^^^^^^^^
  lib.a(g.o): .text+0x2, line 3 of its source
  the name means nothing here: a source has to define it in a loaded section, with .globl
#--- twice.s
.globl _start, f
_start: call g
f: ret
#--- twice
rv: L6 Duplicate f
  twice.s:3:
    f: ret
    ^
  lib.a(g.o): .text+0xa, line 4 of its source
  one source alone may make a name global and define it; .weak in one gives way
#--- unnamed.s
main: nop
#--- unnamed
rv: L7 EntryMissing
  a program begins at _start: one source needs .globl _start, and the label in .text; unnamed.s:1 has main, where none begins: name it _start
#--- needs_g.s
.globl _start
_start: call g
#--- needs_g
rv: L5 Undefined elsewhere
  lib.a(g.o): .text+0x2, line 3 of its source
  the name means nothing here: a source has to define it in a loaded section, with .globl
#--- f.s
.globl f
f: li a0, 7
ret
#--- g.s
.globl g, f
g: ret
tail elsewhere
f: nop
