# An executable made by hand: one segment at 10000h with the rights to read and to execute, and five words: `lui t0,
# 16`, `lw a0, 16(t0)`, `li a7, 93`, `ecall`, and 9. Then without the right to read, and then with 16 bytes of the
# file's, so that the fifth word is 0.
# rv: run --limit 100 made
# exit: 9
# patch: made 44 01
# rv: run --limit 100 made
# end: LoadText 10010
# patch: made 44 05
# patch: made 60 10
# rv: run --limit 100 made
# exit: 0
#--- made hex
7f454c460201010000000000000000000200f30001000000
000001000000000040000000000000000000000000000000
000000004000380001000000000000000100000005000000
780000000000000000000100000000000000010000000000
140000000000000014000000000000000010000000000000
b702010003a502019308d0057300000009000000
