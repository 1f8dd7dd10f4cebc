# Tables that are damaged say nothing, and no run is refused for them: a unit of lines that is longer than its section, an
# instruction that is longer than its program (DWARF 5, 6.2.4, 6.2.5.3), and names in a section that there is not (gABI).
# rv: build -g -o exe a.s
# patch: exe 145a ffffff7f
# rv: trace --count 1 exe
# errors is: names
# rv: build -g -o exe a.s
# patch: exe 149e ff
# rv: trace --count 1 exe
# errors is: names
# rv: build -g -o exe a.s
# patch: exe 1178 ff
# rv: trace --count 1 exe
# errors is: lines
#--- a.s
.globl _start
_start: li a0, 0
  li a7, 93
  ecall
#--- names
           1 0000000000010000 _start               0145     li a0,0                           a0 <- 0000000000000000
#--- lines
           1 0000000000010000                      0145     li a0,0                           a0 <- 0000000000000000                                                # a.s:2
