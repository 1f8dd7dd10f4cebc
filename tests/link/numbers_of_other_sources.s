# The sentence below a fault has the value of a name that another source defines as a number, of any size, also by a weak
# definition.
# rv: build --explain -o exe upper.s numbers.s
# status: 1
# errors is: upper
# rv: build --explain -o exe branch.s numbers.s
# status: 1
# errors is: branch
# rv: build --explain -o exe word.s numbers.s
# status: 1
# errors is: word
#--- upper.s
.globl _start
_start: lui a0, %hi(far)
#--- branch.s
.globl _start
_start: nop
  j far
#--- word.s
.globl _start
_start: nop
.data
.word weak - 2
#--- numbers.s
.globl far
.weak weak
.set far, 0x100000000
.set weak, 0x700000001
#--- upper
rv: L1 Overflow
  upper.s:2:
    _start: lui a0, %hi(far)
                        ^^^
  far is 0x100000000; an upper part takes -2147485696 to 2147481599
#--- branch
rv: L1 Overflow
  branch.s:3:
      j far
        ^^^
  far is at 0x100000000, at a distance of 4294901758 from here, 0x10002; a jump reaches -1048576 to 1048574
#--- word
rv: L1 Overflow
  word.s:4:
    .word weak - 2
          ^^^^
  weak-0x2 is 0x6ffffffff; four bytes take -2147483648 to 4294967295
