# A gap between segments is filled where the words say so, and in a binary with zeros. Memory that begins as zeros is in no image.
# rv: build --text-start 0xfff000 -o exe a.s
# rv: image --vhex -o exe.vhex exe
# same: exe.vhex wanted.vhex
# rv: image --bin -o exe.bin exe
# size: 4097
# rv: image --bin --fill 0xa5 -o filled.bin exe
# size: 4097
# rv: image --ihex -o exe.hex exe
# same: exe.hex wanted.hex
# rv: image --srec --fill 255 -o exe.srec exe
# size: 12075
#--- a.s
.option norvc
.globl _start
_start: nop
.data
.byte 8
.bss
.zero 100
#--- wanted.vhex
@00FFF000 13 00 00 00
@01000000 08
#--- wanted.hex
:0200000400FFFB
:04F0000013000000F9
:020000040100F9
:0100000008F7
:0400000500FFF00008
:00000001FF
