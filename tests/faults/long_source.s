# A source over 16 MiB is refused at no line: this one has a byte more.
# rv: run a.s
# fault: a.s:0: E17 Limit
# rv: build -o a a.s
# fault: a.s:0: E17 Limit
# rv: build -o a b.s a.s
# fault: a.s:0: E17 Limit
# rv: build -o a --map a.map a.s
# fault: a.s:0: E17 Limit
# rv: map a.s
# fault: a.s:0: E17 Limit
# rv: map b.s a.s
# fault: a.s:0: E17 Limit
#--- b.s
#--- a.s
.option norvc
.globl _start
_start: li a0, 7
li a7, 93
ecall
{{16777156 * \n}}