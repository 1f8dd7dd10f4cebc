# What is wrong with a padding of an object, where --explain asks for it: its count of bytes, its place in code, its end.
# rv: ld --explain -o exe odd.o
# status: 1
# errors is: odd
# rv: ld --explain -o exe start.o
# status: 1
# errors is: start
# rv: ld --explain -o exe long.o
# status: 1
# errors is: long
# rv: ld --explain -o exe data.o
# status: 1
# errors is: data
#--- odd.o object
section .text ax 2: 0100 0100
reloc 2 ALIGN +3
symbol _start global 1 0
#--- start.o object
section .text ax 2: 0100 0100 0100
reloc 1 ALIGN +2
symbol _start global 1 0
#--- long.o object
section .text ax 2: 0100 0100
reloc 2 ALIGN +6
symbol _start global 1 0
#--- data.o object
section .text ax 2: 0100 0100
symbol _start global 1 0
section .data wa 2: 0100 0100
reloc 2 ALIGN +3
#--- odd
rv: odd.o: F5 BadTable
  record 0 of section 2 .rela.text is a padding of an odd count of bytes, or over 4,094
#--- start
rv: start.o: F5 BadTable
  record 0 of section 2 .rela.text is a padding of code at an odd offset
#--- long
rv: long.o: F5 BadTable
  record 0 of section 2 .rela.text is a padding that passes the end of its section
#--- data
rv: data.o: F5 BadTable
  record 0 of section 3 .rela.data is a padding of an odd count of bytes, or over 4,094
