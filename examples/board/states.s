# A state machine by a table: counts the words and the numbers of a text, and ends with the count of words.
# A row of the table is a state (between, word, number), a column a class of characters (blank, letter, digit).
.text
.globl main
main:
    addi sp, sp, -48
    sd ra, 0(sp)
    sd s0, 8(sp)
    sd s1, 16(sp)
    sd s2, 24(sp)
    sd s3, 32(sp)
    la s0, text
    la s1, counts
    li s2, 0                # the state
1:  lbu a0, 0(s0)
    beqz a0, 2f
    call class
    slli t0, s2, 1
    add t0, t0, s2          # three columns
    add t0, t0, a0
    la t1, table
    add t1, t1, t0
    lbu s3, 0(t1)           # the next state
    beq s3, s2, 3f
    add t0, s1, s3          # it begins
    lbu t1, 0(t0)
    addi t1, t1, 1
    sb t1, 0(t0)
3:  mv s2, s3
    addi s0, s0, 1
    j 1b
2:  la a0, words
    call put_text
    lbu a0, 1(s1)
    call put_digit
    la a0, numbers
    call put_text
    lbu a0, 2(s1)
    call put_digit
    li a0, '\n'
    call put
    lbu a0, 1(s1)
    ld ra, 0(sp)
    ld s0, 8(sp)
    ld s1, 16(sp)
    ld s2, 24(sp)
    ld s3, 32(sp)
    addi sp, sp, 48
    ret

# the class of the character a0
class:
    li t0, ' '
    bgtu a0, t0, 1f
    li a0, 0
    ret
1:  addi t0, a0, -'0'
    li t1, 10
    bltu t0, t1, 2f
    li a0, 1
    ret
2:  li a0, 2
    ret

.section .rodata
# in a word and in a number, whatever is no blank goes on
table: .byte 0, 1, 2
.byte 0, 1, 1
.byte 0, 2, 2
text: .asciz "the 3 little pigs and 1 wolf, 4 in all\n"
words: .asciz "words "
numbers: .asciz ", numbers "

.data
counts: .byte 0, 0, 0
