# What isn't text is left out: the text and the entry are the same, the data are not.
# rv: build -o exe a.s
# rv: objdump --raw exe
# out is: raw.s
# rv: build -o again raw.s
# text: 0545
#--- a.s
.globl _start
_start: li a0, 1
.data
.dword 1
#--- raw.s
.option norvc
.option norelax
.globl _start
_start:
c.li a0,1
