# A word of each mnemonic, and of each field at its ends, as the disassembler of GNU binutils 2.40 shows it with -M no-aliases;
# shift amounts are decimal here, and targets begin with 0x.
# The executable is made by hand: its header, its program header, and the code from 10000h on.
# rv: objdump --map map exe
# out is: listing
# errors:
#--- map
rvmap 1
text 10000 1000c
rodata 11000 11004
data 12000 12000
bss 12000 12000
entry 10000
row 1 1 1 10000 552 138
#--- listing
@ 1 1 1
10000: lui a0,0x0
10004: lui t6,0xfffff
10008: lui s0,0x12345
1000c: auipc gp,0x1
10010: auipc ra,0x80000
10014: jal ra,0x1001c
10018: jal zero,0x10014
1001c: jal t0,0x11001a
10020: jalr ra,8(ra)
10024: jalr zero,-2048(s11)
10028: beq a0,a1,0x11026
1002c: bne a0,a1,0x1102a
10030: blt a0,a1,0x1102e
10034: bge a0,a1,0x11032
10038: bltu a0,a1,0x11036
1003c: bgeu a0,a1,0x1103a
10040: beq s0,s1,0xf040
10044: bne zero,t6,0x10042
10048: lb a2,-1(sp)
1004c: lh a2,-1(sp)
10050: lw a2,-1(sp)
10054: ld a2,-1(sp)
10058: lbu a2,-1(sp)
1005c: lhu a2,-1(sp)
10060: lwu a2,-1(sp)
10064: ld s2,2047(tp)
10068: lw zero,0(gp)
1006c: sb a3,2047(s3)
10070: sh a3,2047(s3)
10074: sw a3,2047(s3)
10078: sd a3,2047(s3)
1007c: sd ra,-2048(sp)
10080: addi t3,t4,-2048
10084: slti t3,t4,-2048
10088: sltiu t3,t4,-2048
1008c: xori t3,t4,-2048
10090: ori t3,t4,-2048
10094: andi t3,t4,-2048
10098: addiw t3,t4,-2048
1009c: addi zero,zero,0
100a0: addi a0,zero,2047
100a4: addiw a4,a5,1
100a8: slli s4,s5,63
100ac: srli s4,s5,63
100b0: srai s4,s5,63
100b4: slliw s6,s7,31
100b8: srliw s6,s7,31
100bc: sraiw s6,s7,31
100c0: slli a0,a0,0
100c4: add s8,s9,s10
100c8: sub s8,s9,s10
100cc: sll s8,s9,s10
100d0: slt s8,s9,s10
100d4: sltu s8,s9,s10
100d8: xor s8,s9,s10
100dc: srl s8,s9,s10
100e0: sra s8,s9,s10
100e4: or s8,s9,s10
100e8: and s8,s9,s10
100ec: addw s8,s9,s10
100f0: subw s8,s9,s10
100f4: sllw s8,s9,s10
100f8: srlw s8,s9,s10
100fc: sraw s8,s9,s10
10100: mul s8,s9,s10
10104: mulh s8,s9,s10
10108: mulhsu s8,s9,s10
1010c: mulhu s8,s9,s10
10110: div s8,s9,s10
10114: divu s8,s9,s10
10118: rem s8,s9,s10
1011c: remu s8,s9,s10
10120: mulw s8,s9,s10
10124: divw s8,s9,s10
10128: divuw s8,s9,s10
1012c: remw s8,s9,s10
10130: remuw s8,s9,s10
10134: add t0,t1,t2
10138: and a5,a6,a7
1013c: or t5,zero,sp
10140: ecall
10144: ebreak
10148: fence w,iorw
1014c: fence r,ior
10150: fence rw,iow
10154: fence o,io
10158: fence ow,irw
1015c: fence or,ir
10160: fence orw,iw
10164: fence i,i
10168: fence iw,orw
1016c: fence ir,or
10170: fence irw,ow
10174: fence io,o
10178: fence iow,rw
1017c: fence ior,r
10180: fence iorw,w
10184: fence.tso
10188: lr.w a0,(a1)
1018c: sc.w a2,a3,(a4)
10190: lr.w.aq a0,(a1)
10194: sc.w.aq a2,a3,(a4)
10198: lr.w.rl a0,(a1)
1019c: sc.w.rl a2,a3,(a4)
101a0: lr.w.aqrl a0,(a1)
101a4: sc.w.aqrl a2,a3,(a4)
101a8: amoswap.w a5,a6,(a7)
101ac: amoadd.w a5,a6,(a7)
101b0: amoxor.w a5,a6,(a7)
101b4: amoand.w a5,a6,(a7)
101b8: amoor.w a5,a6,(a7)
101bc: amomin.w a5,a6,(a7)
101c0: amomax.w a5,a6,(a7)
101c4: amominu.w a5,a6,(a7)
101c8: amomaxu.w a5,a6,(a7)
101cc: amoadd.w.aq a0,a1,(a2)
101d0: amomaxu.w.rl a0,a1,(a2)
101d4: amoswap.w.aqrl zero,ra,(sp)
101d8: lr.d a0,(a1)
101dc: sc.d a2,a3,(a4)
101e0: lr.d.aq a0,(a1)
101e4: sc.d.aq a2,a3,(a4)
101e8: lr.d.rl a0,(a1)
101ec: sc.d.rl a2,a3,(a4)
101f0: lr.d.aqrl a0,(a1)
101f4: sc.d.aqrl a2,a3,(a4)
101f8: amoswap.d a5,a6,(a7)
101fc: amoadd.d a5,a6,(a7)
10200: amoxor.d a5,a6,(a7)
10204: amoand.d a5,a6,(a7)
10208: amoor.d a5,a6,(a7)
1020c: amomin.d a5,a6,(a7)
10210: amomax.d a5,a6,(a7)
10214: amominu.d a5,a6,(a7)
10218: amomaxu.d a5,a6,(a7)
1021c: amoadd.d.aq a0,a1,(a2)
10220: amomaxu.d.rl a0,a1,(a2)
10224: amoswap.d.aqrl zero,ra,(sp)
#--- exe hex
7f454c460201010000000000000000000200f30001000000000001000000000040000000000000000000000000000000
010000004000380001000000000000000100000001000000780000000000000000000100000000000000010000000000
280200000000000028020000000000000010000000000000
37050000b7ffffff375434129711000097000080ef0080006ff0dfffeff2ff7fe780800067800d80e30fb57ee31fb57e
e34fb57ee35fb57ee36fb57ee37fb57e63009480e31ff0ff0306f1ff0316f1ff0326f1ff0336f1ff0346f1ff0356f1ff
0366f1ff0339f27f03a00100a38fd97ea39fd97ea3afd97ea3bfd97e23301180138e0e8013ae0e8013be0e8013ce0e80
13ee0e8013fe0e801b8e0e80130000001305f07f1b871700139afa0313dafa0313dafa431b9bfb011bdbfb011bdbfb41
13150500338cac01338cac41339cac0133acac0133bcac0133ccac0133dcac0133dcac4133ecac0133fcac013b8cac01
3b8cac413b9cac013bdcac013bdcac41338cac03339cac0333acac0333bcac0333ccac0333dcac0333ecac0333fcac03
3b8cac033bccac033bdcac033becac033bfcac03b3027300b3771801336f200073000000730010000f00f0010f00e002
0f00d0030f00c0040f00b0050f00a0060f0090070f0080080f0070090f00600a0f00500b0f00400c0f00300d0f00200e
0f00100f0f0030832fa505102f26d7182fa505142f26d71c2fa505122f26d71a2fa505162f26d71eafa70809afa70801
afa70821afa70861afa70841afa70881afa708a1afa708c1afa708e12f25b6042f25b6e22f20110e2fb505102f36d718
2fb505142f36d71c2fb505122f36d71a2fb505162f36d71eafb70809afb70801afb70821afb70861afb70841afb70881
afb708a1afb708c1afb708e12f35b6042f35b6e22f30110e
