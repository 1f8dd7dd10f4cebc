# An executable of rv, with the names of its map and without any. The texts are those of GNU objdump -d of a file with that code in a section, and these names.
# rv: build -o exe --map map a.s
# rv: dis --map map exe
# out is: short.txt
# rv: dis --map map --base exe
# out is: base.txt
# rv: dis exe
# out is: bare.txt
#--- a.s
.globl _start, f, message, counter
.text
_start:
    li a0, 1
    la a1, message
    lw a2, counter
    call f
    beqz a0, _start
    li a7, 93
    ecall
    .balign 16
f:
    addi a0, a0, -1
    bnez a0, f
    ret
.section .rodata
message: .asciz "hello"
.data
counter: .word 3
#--- short.txt => base.txt

exe:     file format elf64-littleriscv


Disassembly of section .text:

0000000000010000 <_start>:
   10000:	4505                	{{li => c.li}}	a0,1
   10002:	00001597          	auipc	a1,0x1
   10006:	ffe58593          	{{add => addi}}	a1,a1,-2 # 11000 <message>
   1000a:	00002617          	auipc	a2,0x2
   1000e:	ff662603          	lw	a2,-10(a2) # 12000 <counter>
   10012:	00e000ef          	jal	{{10020 <f> => ra,10020 <f>}}
   10016:	d56d                	{{beqz => c.beqz}}	a0,10000 <_start>
   10018:	05d00893          	{{li	a7,93 => addi	a7,zero,93}}
   1001c:	00000073          	ecall

0000000000010020 <f>:
   10020:	157d                	{{add	a0,a0,-1 => c.addi	a0,-1}}
   10022:	fd7d                	{{bnez => c.bnez}}	a0,10020 <f>
   10024:	8082                	{{ret => c.jr	ra}}
#--- bare.txt

exe:     file format elf64-littleriscv


Disassembly of section .text:

0000000000010000 <.text>:
   10000:	4505                	li	a0,1
   10002:	00001597          	auipc	a1,0x1
   10006:	ffe58593          	add	a1,a1,-2 # 11000 <.text+0x1000>
   1000a:	00002617          	auipc	a2,0x2
   1000e:	ff662603          	lw	a2,-10(a2) # 12000 <.text+0x2000>
   10012:	00e000ef          	jal	10020 <.text+0x20>
   10016:	d56d                	beqz	a0,10000 <.text>
   10018:	05d00893          	li	a7,93
   1001c:	00000073          	ecall
   10020:	157d                	add	a0,a0,-1
   10022:	fd7d                	bnez	a0,10020 <.text+0x20>
   10024:	8082                	ret
