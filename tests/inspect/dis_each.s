# Each short name of an instruction, and the name that it has otherwise; addresses that two instructions make. The texts are those of GNU objdump -d -r, the second with -M no-aliases.
# rv: as -o a.o a.s
# rv: dis a.o
# out is: short.txt
# rv: dis --base a.o
# out is: base.txt
#--- a.s
.globl _start, near
_start:
    nop
    li a0, -1
    li a0, 2000
    mv a0, a1
    not a0, a1
    neg a0, a1
    negw a0, a1
    sext.w a0, a1
    zext.b a0, a1
    seqz a0, a1
    snez a0, a1
    sltz a0, a1
    sgtz a0, a1
    addi a0, a1, 100
    addiw a0, a1, -100
    andi a0, a1, 100
    ori a0, a1, 100
    xori a0, a1, 100
    slti a0, a1, 100
    sltiu a0, a1, 100
    slli a0, a1, 40
    srli a0, a1, 40
    srai a0, a1, 40
    slliw a0, a1, 20
    srliw a0, a1, 20
    sraiw a0, a1, 20
near:
    beqz a0, near
    bnez t1, near
    blez t1, near
    bgez t1, near
    bltz t1, near
    bgtz t1, near
    beq t1, t2, near
    bne t1, t2, near
    blt t1, t2, near
    bge t1, t2, near
    bltu t1, t2, near
    bgeu t1, t2, near
    j near
    jr a0
    jr 4(a0)
    jalr a0
    jalr 4(a0)
    jalr t0, a0
    jalr t0, 4(a0)
    ret
    lui a0, 0xfffff
    addi a0, a0, -1
    lui a1, 0x12
    lw a2, 4(a1)
    auipc a3, 1
    sd a2, -8(a3)
    lui a4, 0x80000
    addiw a4, a4, -1
    lb a0, -1(a1)
    lbu a0, -1(a1)
    lh a0, -2(a1)
    lhu a0, -2(a1)
    lwu a0, 8(a1)
    ld a0, 8(a1)
    sb a0, -1(a1)
    sh a0, -2(a1)
    sw a0, 8(a1)
    lw a0, 8(zero)
    fence
    fence r, w
    fence.tso
    ecall
    ebreak
    lr.w a0, (a1)
    sc.d.rl a0, a2, (a1)
    amoadd.d.aqrl a0, a1, (a2)
    amomaxu.w.aq a0, a1, (a2)
    mul a0, a1, a2
    mulhsu a0, a1, a2
    divuw a0, a1, a2
    add a0, zero, a1
    c.nop
    c.mv a0, a1
    c.add a0, a1
    c.addi16sp sp, -32
    c.addi4spn a0, sp, 8
    c.lwsp a0, 4(sp)
    c.sdsp a0, 8(sp)
    c.ld a0, 8(a1)
    c.sw a0, 4(a1)
    c.lui a0, 0x1f
    c.andi a0, -3
    c.srai a0, 3
    c.slli a0, 3
    c.subw a0, a1
    c.addiw a0, 0
    c.addiw a0, 5
    c.jr a0
    c.jalr a0
    c.j near
    c.bnez a0, near
    c.ebreak
#--- short.txt => base.txt

a.o:     file format elf64-littleriscv


Disassembly of section .text:

0000000000000000 <_start>:
   0:	0001                	{{nop => c.addi	zero,0}}
   2:	557d                	{{li => c.li}}	a0,-1
   4:	7d000513          	{{li	a0,2000 => addi	a0,zero,2000}}
   8:	852e                	{{mv => c.mv}}	a0,a1
   a:	fff5c513          	{{not	a0,a1 => xori	a0,a1,-1}}
   e:	40b00533          	{{neg	a0,a1 => sub	a0,zero,a1}}
  12:	40b0053b          	{{negw	a0,a1 => subw	a0,zero,a1}}
  16:	0005851b          	{{sext.w	a0,a1 => addiw	a0,a1,0}}
  1a:	0ff5f513          	{{zext.b	a0,a1 => andi	a0,a1,255}}
  1e:	0015b513          	{{seqz	a0,a1 => sltiu	a0,a1,1}}
  22:	00b03533          	{{snez	a0,a1 => sltu	a0,zero,a1}}
  26:	0005a533          	{{sltz	a0,a1 => slt	a0,a1,zero}}
  2a:	00b02533          	{{sgtz	a0,a1 => slt	a0,zero,a1}}
  2e:	06458513          	{{add => addi}}	a0,a1,100
  32:	f9c5851b          	{{addw => addiw}}	a0,a1,-100
  36:	0645f513          	{{and => andi}}	a0,a1,100
  3a:	0645e513          	{{or => ori}}	a0,a1,100
  3e:	0645c513          	{{xor => xori}}	a0,a1,100
  42:	0645a513          	slti	a0,a1,100
  46:	0645b513          	sltiu	a0,a1,100
  4a:	02859513          	{{sll => slli}}	a0,a1,0x28
  4e:	0285d513          	{{srl => srli}}	a0,a1,0x28
  52:	4285d513          	{{sra => srai}}	a0,a1,0x28
  56:	0145951b          	{{sllw => slliw}}	a0,a1,0x14
  5a:	0145d51b          	{{srlw => srliw}}	a0,a1,0x14
  5e:	4145d51b          	{{sraw => sraiw}}	a0,a1,0x14

0000000000000062 <near>:
  62:	c101                	{{beqz => c.beqz}}	a0,62 <near>
			62: R_RISCV_RVC_BRANCH	near
  64:	00031063          	{{bnez	t1,64 <near+0x2> => bne	t1,zero,64 <near+0x2>}}
			64: R_RISCV_BRANCH	near
  68:	00605063          	{{blez	t1,68 <near+0x6> => bge	zero,t1,68 <near+0x6>}}
			68: R_RISCV_BRANCH	near
  6c:	00035063          	{{bgez	t1,6c <near+0xa> => bge	t1,zero,6c <near+0xa>}}
			6c: R_RISCV_BRANCH	near
  70:	00034063          	{{bltz	t1,70 <near+0xe> => blt	t1,zero,70 <near+0xe>}}
			70: R_RISCV_BRANCH	near
  74:	00604063          	{{bgtz	t1,74 <near+0x12> => blt	zero,t1,74 <near+0x12>}}
			74: R_RISCV_BRANCH	near
  78:	00730063          	beq	t1,t2,78 <near+0x16>
			78: R_RISCV_BRANCH	near
  7c:	00731063          	bne	t1,t2,7c <near+0x1a>
			7c: R_RISCV_BRANCH	near
  80:	00734063          	blt	t1,t2,80 <near+0x1e>
			80: R_RISCV_BRANCH	near
  84:	00735063          	bge	t1,t2,84 <near+0x22>
			84: R_RISCV_BRANCH	near
  88:	00736063          	bltu	t1,t2,88 <near+0x26>
			88: R_RISCV_BRANCH	near
  8c:	00737063          	bgeu	t1,t2,8c <near+0x2a>
			8c: R_RISCV_BRANCH	near
  90:	a001                	{{j => c.j}}	90 <near+0x2e>
			90: R_RISCV_RVC_JUMP	near
  92:	8502                	{{jr => c.jr}}	a0
  94:	00450067          	{{jr	4(a0) => jalr	zero,4(a0)}}
  98:	9502                	{{jalr => c.jalr}}	a0
  9a:	004500e7          	jalr	{{4(a0) => ra,4(a0)}}
  9e:	000502e7          	jalr	{{t0,a0 => t0,0(a0)}}
  a2:	004502e7          	jalr	t0,4(a0)
  a6:	8082                	{{ret => c.jr	ra}}
  a8:	757d                	{{lui => c.lui}}	a0,0xfffff
  aa:	157d                	{{add	a0,a0,-1 => c.addi	a0,-1}} # ffffffffffffefff <near+0xffffffffffffef9d>
  ac:	65c9                	{{lui => c.lui}}	a1,0x12
  ae:	41d0                	{{lw => c.lw}}	a2,4(a1)
  b0:	00001697          	auipc	a3,0x1
  b4:	fec6bc23          	sd	a2,-8(a3) # 10a8 <near+0x1046>
  b8:	80000737          	lui	a4,0x80000
  bc:	377d                	{{addw	a4,a4,-1 => c.addiw	a4,-1}} # 7fffffff <near+0x7fffff9d>
  be:	fff58503          	lb	a0,-1(a1) # 11fff <near+0x11f9d>
  c2:	fff5c503          	lbu	a0,-1(a1)
  c6:	ffe59503          	lh	a0,-2(a1)
  ca:	ffe5d503          	lhu	a0,-2(a1)
  ce:	0085e503          	lwu	a0,8(a1)
  d2:	6588                	{{ld => c.ld}}	a0,8(a1)
  d4:	fea58fa3          	sb	a0,-1(a1)
  d8:	fea59f23          	sh	a0,-2(a1)
  dc:	c588                	{{sw => c.sw}}	a0,8(a1)
  de:	00802503          	lw	a0,8(zero) # 8 <_start+0x8>
  e2:	0ff0000f          	{{fence => fence	iorw,iorw}}
  e6:	0210000f          	fence	r,w
  ea:	8330000f          	fence.tso
  ee:	00000073          	ecall
  f2:	9002                	{{ebreak => c.ebreak}}
  f4:	1005a52f          	lr.w	a0,(a1)
  f8:	1ac5b52f          	sc.d.rl	a0,a2,(a1)
  fc:	06b6352f          	amoadd.d.aqrl	a0,a1,(a2)
 100:	e4b6252f          	amomaxu.w.aq	a0,a1,(a2)
 104:	02c58533          	mul	a0,a1,a2
 108:	02c5a533          	mulhsu	a0,a1,a2
 10c:	02c5d53b          	divuw	a0,a1,a2
 110:	852e                	{{mv => c.mv}}	a0,a1
 112:	0001                	{{nop => c.addi	zero,0}}
 114:	852e                	{{mv => c.mv}}	a0,a1
 116:	952e                	{{add	a0,a0,a1 => c.add	a0,a1}}
 118:	713d                	{{add	sp,sp,-32 => c.addi16sp	sp,-32}}
 11a:	0028                	{{add => c.addi4spn}}	a0,sp,8
 11c:	4512                	{{lw => c.lwsp}}	a0,4(sp)
 11e:	e42a                	{{sd => c.sdsp}}	a0,8(sp)
 120:	6588                	{{ld => c.ld}}	a0,8(a1)
 122:	c1c8                	{{sw => c.sw}}	a0,4(a1)
 124:	657d                	{{lui => c.lui}}	a0,0x1f
 126:	9975                	{{and	a0,a0,-3 => c.andi	a0,-3}}
 128:	850d                	{{sra	a0,a0,0x3 => c.srai	a0,0x3}}
 12a:	050e                	{{sll	a0,a0,0x3 => c.slli	a0,0x3}}
 12c:	9d0d                	{{subw	a0,a0,a1 => c.subw	a0,a1}}
 12e:	2501                	{{sext.w	a0,a0 => c.addiw	a0,0 # 1f000 <near+0x1ef9e>}}
 130:	2515                	{{addw	a0,a0,5 # 1f005 <near+0x1efa3> => c.addiw	a0,5}}
 132:	8502                	{{jr => c.jr}}	a0
 134:	9502                	{{jalr => c.jalr}}	a0
 136:	a001                	{{j => c.j}}	136 <near+0xd4>
			136: R_RISCV_RVC_JUMP	near
 138:	e101                	{{bnez => c.bnez}}	a0,138 <near+0xd6>
			138: R_RISCV_RVC_BRANCH	near
 13a:	9002                	{{ebreak => c.ebreak}}
