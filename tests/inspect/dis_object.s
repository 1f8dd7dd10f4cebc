# An object with two sections of code: its names, local ones too, and its relocations under their instructions. The texts are those of GNU objdump -d -r, but for the place that a symbol without a name has: GNU shows its section alone.
# rv: as -o a.o a.s
# rv: dis a.o
# out is: short.txt
# rv: dis --base a.o
# out is: base.txt
#--- a.s
# comment
.globl main, count
.equ size, 24
.text
    addi sp, sp, -16
main:
    call far
    la a0, msg
    lui a1, %hi(count)
    lw a2, %lo(count)(a1)
    sw a2, %lo(count+4)(a1)
    beqz a2, .Lend
    j main
.Lend:
    tail main
local:
    ret
.section .text.cold, "ax"
cold:
    bnez a0, cold
    call local
.section .rodata
msg: .asciz "hi"
.data
count: .word 1, 2
    .dword main+4
#--- short.txt => base.txt

a.o:     file format elf64-littleriscv


Disassembly of section .text:

0000000000000000 <main-0x2>:
   0:	1141                	{{add	sp,sp,-16 => c.addi	sp,-16}}

0000000000000002 <main>:
   2:	00000097          	auipc	ra,0x0
			2: R_RISCV_CALL_PLT	far
			2: R_RISCV_RELAX	*ABS*
   6:	000080e7          	jalr	{{ra => ra,0(ra)}} # 2 <main>
   a:	00000517          	auipc	a0,0x0
			a: R_RISCV_PCREL_HI20	msg
   e:	00050513          	{{mv	a0,a0 => addi	a0,a0,0 # a <main+0x8>}}
			e: R_RISCV_PCREL_LO12_I	.text+0xa
  12:	000005b7          	lui	a1,0x0
			12: R_RISCV_HI20	count
  16:	0005a603          	lw	a2,0(a1) # 0 <main-0x2>
			16: R_RISCV_LO12_I	count
  1a:	00c5a023          	sw	a2,0(a1)
			1a: R_RISCV_LO12_S	count+0x4
  1e:	c201                	{{beqz => c.beqz}}	a2,1e <main+0x1c>
			1e: R_RISCV_RVC_BRANCH	.Lend
  20:	a001                	{{j => c.j}}	20 <main+0x1e>
			20: R_RISCV_RVC_JUMP	main

0000000000000022 <.Lend>:
  22:	00000317          	auipc	t1,0x0
			22: R_RISCV_CALL_PLT	main
			22: R_RISCV_RELAX	*ABS*
  26:	00030067          	{{jr	t1 => jalr	zero,0(t1)}} # 22 <.Lend>

000000000000002a <local>:
  2a:	8082                	{{ret => c.jr	ra}}

Disassembly of section .text.cold:

0000000000000000 <cold>:
   0:	e101                	{{bnez => c.bnez}}	a0,0 <cold>
			0: R_RISCV_RVC_BRANCH	cold
   2:	00000097          	auipc	ra,0x0
			2: R_RISCV_CALL_PLT	local
			2: R_RISCV_RELAX	*ABS*
   6:	000080e7          	jalr	{{ra => ra,0(ra)}} # 2 <cold+0x2>
