# Rows of one object that lie over each other, as after `ld -r`, which joins the rows of two objects and has both name the
# first section: the link warns of it, where it writes a map, and only of that object.
# rv: ld -o exe a.o b.o
# errors:
# rv: ld -o exe --map map a.o b.o
# errors: rv: warning: b.o: rows lie over each other, as after ld -r; objcopy -R .rv.rows takes them out\n
# map: row 1 3 1 10000 4 1
# map: row 2 7 1 10004 4 1
# map: row 2 8 2 10008 4 1
# map: row 2 9 3 10004 4 1
# rv: build -o exe --map map c.s
# errors:
#--- a.o object
section .text ax 4: 13000000
section .rv.rows - 8: 03000000 01000000 01000000 01000000 00000000 00000000 04000000 00000000
symbol _start global 1 0
#--- b.o object
section .text ax 4: 13000000 13000000
section .rv.rows - 8: 07000000 01000000 01000000 01000000 00000000 00000000 04000000 00000000 08000000 02000000 01000000 01000000 04000000 00000000 04000000 00000000 09000000 03000000 01000000 01000000 00000000 00000000 04000000 00000000
#--- c.s
.globl _start
_start: nop
.data
label: .set place, .
