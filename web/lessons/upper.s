# Writes the input in capital letters: one instruction is missing.
# input: risc-v\n
# console: RISC-V\n
.globl _start
_start: li   a0, 0              # reads one byte
        la   a1, byte
        li   a2, 1
        li   a7, 63
        ecall
        beqz a0, done
        lbu  t0, (a1)
        li   t1, 'a'
        li   t2, 'z'
        blt  t0, t1, write
        bgt  t0, t2, write
        # here
write:  sb   t0, (a1)
        li   a0, 1              # writes it
        li   a7, 64
        ecall
        j    _start
done:   li   a0, 0
        li   a7, 93
        ecall
.bss
byte:   .zero 1
