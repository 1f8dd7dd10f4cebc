# The last page below the stack, which begins at 3FF00000h, may have the text.
# options: --text-start 0x3feff000
# status: 0
# map: text 3feff000 3feff004
#--- a.o object
section .text ax 4: 13000000
symbol _start global 1 0
