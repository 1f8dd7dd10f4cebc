# Types and sizes change no program: of functions with calls that are cut, of one in two sections, of variables.
# exit: 12
.text
.globl _start
.type _start, @function
_start: li   a0, 5
        call first
        call second
        li   a7, 93
        ecall
.size _start, .-_start

.type first, %function
first:  beqz a0, first.part
        addi a0, a0, 3
        ret
.section .text.part, "ax"
.type first.part, @function
first.part:
        call second
        j    first
.text
.size first, .-first
.section .text.part, "ax"
.size first.part, . - first.part

.text
.globl second
.type second, @function
second: la t0, more; lw t0, (t0); add a0, a0, t0; ret; .size second, .-second

.data
.globl more
.type more, @object
more:   .word 4
.size more, 4
table:  .word 1, 2; .type table, @object; .size table, 0x8
