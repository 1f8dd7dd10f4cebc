# A parcel of each form, with its fields at their ends, and HINTs, as the disassembler of GNU binutils 2.40 shows them with
# -M no-aliases; each is shown as the instruction that it stands for (ISA 20191213, chapter 16).
# The executable is made by hand: its header, its program header, and the code from 10000h on.
# rv: objdump --map map exe
# out is: listing
# errors:
#--- map
rvmap 1
text 10000 1011e
rodata 11000 11000
data 11000 11000
bss 11000 11000
entry 10000
row 1 1 1 10000 286 143
#--- listing
@ 1 1 1
10000: addi a0,sp,4
10002: addi a0,sp,8
10004: addi a0,sp,1020
10006: addi a0,sp,64
10008: addi a0,sp,960
1000a: addi s0,sp,16
1000c: lw s0,0(a5)
1000e: sw a5,0(s0)
10010: lw s0,4(a5)
10012: sw a5,4(s0)
10014: lw s0,64(a5)
10016: sw a5,64(s0)
10018: lw s0,124(a5)
1001a: sw a5,124(s0)
1001c: ld a5,0(s0)
1001e: sd s0,0(a5)
10020: ld a5,8(s0)
10022: sd s0,8(a5)
10024: ld a5,64(s0)
10026: sd s0,64(a5)
10028: ld a5,248(s0)
1002a: sd s0,248(a5)
1002c: lw ra,0(sp)
1002e: sw t6,0(sp)
10030: lw ra,4(sp)
10032: sw t6,4(sp)
10034: lw ra,32(sp)
10036: sw t6,32(sp)
10038: lw ra,64(sp)
1003a: sw t6,64(sp)
1003c: lw ra,252(sp)
1003e: sw t6,252(sp)
10040: ld t6,0(sp)
10042: sd zero,0(sp)
10044: ld t6,8(sp)
10046: sd zero,8(sp)
10048: ld t6,32(sp)
1004a: sd zero,32(sp)
1004c: ld t6,64(sp)
1004e: sd zero,64(sp)
10050: ld t6,504(sp)
10052: sd zero,504(sp)
10054: addi zero,zero,0
10056: addi t6,t6,-32
10058: addi t6,t6,-1
1005a: addi t6,t6,1
1005c: addi t6,t6,31
1005e: addi sp,sp,16
10060: addi sp,sp,-32
10062: addiw ra,ra,-32
10064: addi t6,zero,-32
10066: andi a5,a5,-32
10068: addiw ra,ra,0
1006a: addi t6,zero,0
1006c: andi a5,a5,0
1006e: addiw ra,ra,31
10070: addi t6,zero,31
10072: andi a5,a5,31
10074: addi sp,sp,-512
10076: addi sp,sp,-48
10078: addi sp,sp,32
1007a: addi sp,sp,64
1007c: addi sp,sp,128
1007e: addi sp,sp,256
10080: addi sp,sp,496
10082: lui ra,0x1
10084: lui ra,0x1f
10086: lui ra,0xfffe0
10088: lui ra,0xfffff
1008a: srli s0,s0,1
1008c: srai a5,a5,1
1008e: slli t6,t6,1
10090: srli s0,s0,31
10092: srai a5,a5,31
10094: slli t6,t6,31
10096: srli s0,s0,32
10098: srai a5,a5,32
1009a: slli t6,t6,32
1009c: srli s0,s0,63
1009e: srai a5,a5,63
100a0: slli t6,t6,63
100a2: jal zero,0xf8a2
100a4: jal zero,0x100a2
100a6: jal zero,0x100a6
100a8: jal zero,0x100aa
100aa: jal zero,0x100ba
100ac: jal zero,0x100cc
100ae: jal zero,0x100ee
100b0: jal zero,0x10130
100b2: jal zero,0x101b2
100b4: jal zero,0x102b4
100b6: jal zero,0x104b6
100b8: jal zero,0x108b6
100ba: beq s0,zero,0xffba
100bc: bne a5,zero,0xffbc
100be: beq s0,zero,0x100bc
100c0: bne a5,zero,0x100be
100c2: beq s0,zero,0x100c2
100c4: bne a5,zero,0x100c4
100c6: beq s0,zero,0x100c8
100c8: bne a5,zero,0x100ca
100ca: beq s0,zero,0x100d2
100cc: bne a5,zero,0x100d4
100ce: beq s0,zero,0x100ee
100d0: bne a5,zero,0x100f0
100d2: beq s0,zero,0x10112
100d4: bne a5,zero,0x10114
100d6: beq s0,zero,0x10156
100d8: bne a5,zero,0x10158
100da: beq s0,zero,0x101d8
100dc: bne a5,zero,0x101da
100de: jalr zero,0(ra)
100e0: jalr zero,0(t6)
100e2: jalr ra,0(ra)
100e4: jalr ra,0(t6)
100e6: sub s0,s0,a5
100e8: sub a5,a5,s0
100ea: xor s0,s0,a5
100ec: xor a5,a5,s0
100ee: or s0,s0,a5
100f0: or a5,a5,s0
100f2: and s0,s0,a5
100f4: and a5,a5,s0
100f6: subw s0,s0,a5
100f8: subw a5,a5,s0
100fa: addw s0,s0,a5
100fc: addw a5,a5,s0
100fe: add ra,zero,t6
10100: add t6,t6,ra
10102: ebreak
10104: addi zero,zero,1
10106: addi zero,zero,-32
10108: addi a0,a0,0
1010a: addi sp,sp,0
1010c: addi zero,zero,5
1010e: lui zero,0x1
10110: add zero,zero,a0
10112: add zero,zero,a0
10114: slli zero,zero,3
10116: slli a0,a0,0
10118: slli zero,zero,0
1011a: srli a0,a0,0
1011c: srai a0,a0,0
#--- exe hex
7f454c460201010000000000000000000200f30001000000000001000000000040000000000000000000000000000000
010000004000380001000000000000000100000001000000780000000000000000000100000000000000010000000000
1e010000000000001e01000000000000001000000000000048002800e81f88008807000880431cc0c0435cc0a0433cc0
e05f7cdc1c6080e31c6480e73c60a0e37c7ce0ff82407ec092407ec282507ed08640fec0fe50fedf826f02e0a26f02e4
827f02f0866f82e0fe7f82ff0100811ffd1f850ffd0f410101118130815f819b8120814f818bfd20fd4ffd8b01717971
05612161096111617d618560fd608170fd7005808587860f7d80fd87fe0f01908197821f7d90fd97fe1f01b0fdbf01a0
09a001a805a081a041a001a201a401a1fdaf01d081f37ddcfdff01c081e309c089e301c481e705c085e321c0a1e341c0
c1e37dccfdef8280828f8290829f1d8c818f3d8ca18f5d8cc18f7d8ce18f1d9c819f3d9ca19ffe80869f029005000110
01050101154005602a802a900e000205020001810185
