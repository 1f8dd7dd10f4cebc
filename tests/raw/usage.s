# A listing is by a map, or raw.
# rv: build -o exe --map map a.s
# rv: objdump --raw --map map exe
# status: 2
# rv: objdump exe
# status: 2
# rv: objdump --raw
# status: 2
# rv: objdump --raw map
# status: 1
# error: rv: map: F2 BadMagic
# rv: objdump --raw nowhere
# status: 1
# error: rv: nowhere: cannot read
#--- a.s
.globl _start
_start: nop
