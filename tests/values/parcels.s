# Every 16-bit form of RV64C, run. The bytes of the text are those of GNU as 2.40; its words stand at any even address.
# What each form gives is stored from 12100h on and compared; the status is the number of the first value that differs,
# from 1, or 0. The values are those of qemu-riscv64 7.2: of this very file GNU as and ld (-Ttext=0x10000) make a
# program that exits with 0 there.
# text at 10000: c9673e810a8413040410080808e081550ce4fd050ce8fe0585250cec81910cf0fe15fd950cf4f9990cf805610a8610fc
# text at 10030: 39710561098e30e02d8e30e4498e30e8698e30ec0d9e30f08176b19e34f48a9634f874dc785c38fcb6ff7e7758e0aedf
# text at 10060: 7e5758e40100014711c3029011e102906dff65dd21a0868654e8828097070000e917829758680507
# exit: 0
.option rvc
.globl _start
_start:
    lui a5, 0x12                # c.lui
    mv sp, a5                   # c.mv
    mv s0, sp
    addi s0, s0, 256
    addi a0, sp, 16             # c.addi4spn
    sd a0, 0(s0)                # c.sd
    li a1, -32                  # c.li
    sd a1, 8(s0)
    addi a1, a1, 31             # c.addi
    sd a1, 16(s0)
    slli a1, a1, 31             # c.slli
    addiw a1, a1, 1             # c.addiw
    sd a1, 24(s0)
    srli a1, a1, 32             # c.srli
    sd a1, 32(s0)
    slli a1, a1, 63
    srai a1, a1, 63             # c.srai
    sd a1, 40(s0)
    andi a1, a1, -2             # c.andi
    sd a1, 48(s0)
    addi sp, sp, 32             # c.addi16sp
    mv a2, sp
    sd a2, 56(s0)
    addi sp, sp, -64
    addi sp, sp, 32
    sub a2, a2, a0              # c.sub
    sd a2, 64(s0)
    xor a2, a2, a1              # c.xor
    sd a2, 72(s0)
    or a2, a2, a0               # c.or
    sd a2, 80(s0)
    and a2, a2, a0              # c.and
    sd a2, 88(s0)
    subw a2, a2, a1             # c.subw
    sd a2, 96(s0)
    lui a3, 0xfffe0
    addw a3, a3, a2             # c.addw
    sd a3, 104(s0)
    add a3, a3, sp              # c.add
    sd a3, 112(s0)
    sw a3, 124(s0)              # c.sw
    lw a4, 124(s0)              # c.lw
    sd a4, 120(s0)
    sd a3, 504(sp)              # c.sdsp
    ld a4, 504(sp)              # c.ldsp
    sd a4, 128(s0)
    sw a1, 252(sp)              # c.swsp
    lw a4, 252(sp)              # c.lwsp
    sd a4, 136(s0)
    nop                         # c.nop
    li a4, 0
    beqz a4, 2f                 # c.beqz
1:  ebreak                      # c.ebreak
2:  bnez a0, 3f                 # c.bnez
    ebreak
3:  bnez a4, 1b
    beqz a0, 1b
    j 5f                        # c.j
4:  mv a3, ra
    sd a3, 144(s0)
    jr ra                       # c.jr
5:  auipc a5, 0
    addi a5, a5, -6
    jalr a5                     # c.jalr
    ld a4, 144(s0)              # c.ld
    addi a4, a4, 1
    sd a4, 152(s0)

    la s1, values
    la s2, end
    li a0, 1
1:  ld t0, 0(s0)
    ld t1, 0(s1)
    bne t0, t1, 2f
    addi a0, a0, 1
    addi s0, s0, 8
    addi s1, s1, 8
    bne s1, s2, 1b
    li a0, 0
2:  li a7, 93
    ecall

.section .rodata
    .balign 8
values:
    .dword 0x12010
    .dword -32
    .dword -1
    .dword -0x7fffffff
    .dword 0xffffffff
    .dword -1
    .dword -2
    .dword 0x12020
    .dword 0x10
    .dword -18
    .dword -2
    .dword 0x12010
    .dword 0x12012
    .dword -0xdfee
    .dword 0x4012
    .dword 0x4012
    .dword 0x4012
    .dword -2
    .dword 0x10084
    .dword 0x10085
end:

# At 12000h, with GNU ld too.
.data
    .balign 4096
    .zero 512
