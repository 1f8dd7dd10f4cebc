# The entry stands behind other instructions, and the text at another page.
# rv: build --text-start 0x20000 -o exe a.s
# rv: objdump --raw exe
# out is: raw.s
# rv: build --text-start 0x20000 -o again raw.s
# same: exe again
#--- a.s
.option norvc
f: jal zero, f
beq a0, a1, f
.globl _start
_start: jal f
fence rw, w
fence.tso
amoadd.w.aqrl a0, a1, (a2)
lr.d.rl s0, (fp)
lui a0, 0xfffff
auipc sp, 1
lw a0, -4(sp)
sd zero, 2047(t6)
sltiu a0, a0, -1
srai t0, t1, 63
.option rvc
addi sp, sp, 496
addi sp, sp, 16
lui a0, 0xfffff
lw a0, 124(s1)
sd a5, 504(sp)
and a0, a0, a5
jalr ra
j f
ebreak
#--- raw.s
.option norvc
.option norelax
.globl _start
jal zero,.+0
beq a0,a1,.-4
_start:
jal ra,.-8
fence rw,w
fence.tso
amoadd.w.aqrl a0,a1,(a2)
lr.d.rl s0,(s0)
lui a0,0xfffff
auipc sp,0x1
lw a0,-4(sp)
sd zero,2047(t6)
sltiu a0,a0,-1
srai t0,t1,63
c.addi16sp sp,496
c.addi sp,16
c.lui a0,0xfffff
c.lw a0,124(s1)
c.sdsp a5,504(sp)
c.and a0,a5
c.jalr ra
c.j .-66
c.ebreak
