# Below the line of a fault stands what check says of it, where --explain asks for it; as shows it to GCC too, which deletes its
# source. Without it the line stands alone.
# rv: build -o exe a.s
# status: 1
# errors: rv: a.s:2: E14 ImmediateRange\n
# rv: build --explain -o exe a.s
# status: 1
# out:
# errors is: wanted
# rv: build --explain --map m -o exe a.s
# status: 1
# errors is: wanted
# rv: map --explain a.s
# status: 1
# out:
# errors is: wanted
# rv: run --explain a.s
# status: 1
# errors is: wanted
# rv: run --report --explain a.s
# status: 1
# errors is: wanted
# rv: as --explain -o a.o a.s
# status: 1
# errors is: wanted
# rv: as --traditional-format -march=rv64imac -mabi=lp64 -mno-relax -o a.o a.s
# status: 1
# errors is: wanted
# rv: build --explain -o exe b.s
# status: 1
# errors is: link
# rv: run --explain --limit 5 c.s
# status: 125
# errors: rv: Limit\n  rv run --report says where and why\n
# rv: run --limit 5 c.s
# status: 125
# errors: rv: Limit\n
# rv: run --explain d.s
# errors:
#--- a.s
.globl _start
_start: addi a0, zero, 5000
#--- b.s
.globl _start
_start: call f
#--- c.s
.globl _start
_start: j _start
#--- d.s
.globl _start
_start: li a7, 93; ecall
#--- wanted
rv: a.s:2: E14 ImmediateRange
    _start: addi a0, zero, 5000
                           ^^^^
  addi takes -2048 to 2047 here, 5000 is too large; li a0, 5000 loads it
#--- link
rv: L5 Undefined f
  b.s:2:
    _start: call f
                 ^
  the name means nothing here: a source has to define it in a loaded section, with .globl
