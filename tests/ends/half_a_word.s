# The last parcel of the text says that a word begins there, of which only half may be executed.
# rv: build -o exe half_a_word.s
# patch: exe 1002 1300
# rv: run exe
# end: FetchOutside 10002
# out:
.globl _start
_start: nop
nop
