# The section and the record for which an object is refused, where --explain asks for them. The object of rv has its section headers
# from 170h on, its relocations at 50h and its rows at 80h.
# rv: as -o a.o a.s
# patch: a.o 58 14000000
# rv: ld --explain -o exe a.o
# status: 1
# out:
# errors is: relocation
# rv: as -o a.o a.s
# patch: a.o 1b4 0e000000
# rv: ld --explain -o exe a.o
# status: 1
# errors is: section
# rv: as -o a.o a.s
# patch: a.o 88 09000000
# rv: ld --explain -o exe a.o
# status: 1
# errors is: row
# rv: as -o a.o a.s
# patch: a.o 1e0 03
# rv: ld --explain -o exe a.o
# status: 1
# errors is: alignment
# rv: as -o a.o a.s
# patch: a.o 50 0900
# rv: ld --explain -o exe a.o
# status: 1
# errors is: place
#--- a.s
.globl _start
nop
_start: call f
#--- relocation
rv: a.o: F9 UnsupportedRelocation 20
  record 0 of section 2 .rela.text is of a kind that is left out: compile without -fPIC and thread-local storage; it is GOT_HI20 at 0x2 of f
#--- section
rv: a.o: F10 UnsupportedSection 14
  section 1 .text has a type that is left out: compile without constructors and groups
#--- row
rv: a.o: F5 BadTable
  record 0 of section 3 .rv.rows is not in a loaded section: a tool that moves sections leaves the rows wrong, and objcopy -R .rv.rows takes them out
#--- alignment
rv: a.o: F5 BadTable
  section 1 .text has an alignment that is no power of two
#--- place
rv: a.o: F5 BadTable
  record 0 of section 2 .rela.text has a field that is not in the bytes of its section
