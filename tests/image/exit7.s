# An executable in each format. The records of data are those of GNU objcopy (-O ihex, -O srec --srec-forceS3, -O verilog);
# what counts the base and the start is by the formats' own pages.
# rv: build -o exe a.s
# rv: image --bin -o exe.bin exe
# same: exe.bin wanted.bin
# rv: image --ihex -o exe.hex exe
# same: exe.hex wanted.hex
# rv: image --srec -o exe.srec exe
# same: exe.srec wanted.srec
# rv: image --vhex -o exe.vhex exe
# same: exe.vhex wanted.vhex
#--- a.s
.option norvc
.globl _start
_start: li a0, 7
li a7, 93
ecall
#--- wanted.bin hex
13057000 9308d005 73000000
#--- wanted.hex
:020000040001F9
:0C000000130570009308D0057300000089
:0400000500010000F6
:00000001FF
#--- wanted.srec
S0030000FC
S31100010000130570009308D0057300000082
S70500010000F9
#--- wanted.vhex
@00010000 13 05 70 00 93 08 D0 05 73 00 00 00
