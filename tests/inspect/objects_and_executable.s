# Objects of rv, and the executable of the same sources, which has segments and its names in its map. The texts are those of
# GNU size -t, nm and readelf -hSlrsW over the objects; the header and the segments of the executable those of readelf -hSlrW,
# its sizes the sums of its segments, its names those of the map.
# rv: as -o a.o a.s
# rv: as -o b.o b.s
# rv: size a.o
# out is: size.txt
# rv: size a.o b.o
# out is: total.txt
# rv: nm a.o
# out is: nm-a.txt
# rv: nm b.o
# out is: nm-b.txt
# rv: elf a.o
# out is: elf-a.txt
# rv: elf b.o
# out is: elf-b.txt
# rv: build -o exe --map map a.s b.s
# rv: size exe
# out is: size-exe.txt
# rv: nm --map map exe
# out is: nm-exe.txt
# rv: elf exe
# out is: elf-exe.txt
# rv: nm exe
# fault: exe: no symbols
#--- a.s
.globl _start
.option norvc
_start: li a0, 1
call far
beqz a0, far
lw a2, %lo(ext)(a1)
la a1, msg
far: addi sp, sp, -16
 j _start
.section .rodata
msg: .ascii "hello"
.data
.globl table
table: .dword msg, ext-8, 5
.bss
buf: .zero 100
#--- b.s
.globl ext
.weak maybe
maybe: ret
.set count, 7
.globl count
.section .sdata,"aw"
ext: .word 1, 2
#--- size.txt
   text	   data	    bss	    dec	    hex	filename
     41	     24	    100	    165	     a5	a.o
#--- total.txt
   text	   data	    bss	    dec	    hex	filename
     41	     24	    100	    165	     a5	a.o
      2	      8	      0	     10	      a	b.o
     43	     32	    100	    175	     af	(TOTALS)
#--- nm-a.txt
0000000000000000 T _start
0000000000000000 b buf
                 U ext
000000000000001c t far
0000000000000000 r msg
0000000000000000 D table
#--- nm-b.txt
0000000000000007 A count
0000000000000000 D ext
0000000000000000 W maybe
#--- elf-a.txt
{{elf_object.txt}}
  Start of section headers:          1144 (bytes into file)
  Flags:                             0x0
  Size of this header:               64 (bytes)
  Size of program headers:           0 (bytes)
  Number of program headers:         0
  Size of section headers:           64 (bytes)
  Number of section headers:         11
  Section header string table index: 10

Section Headers:
  [Nr] Name              Type            Address          Off    Size   ES Flg Lk Inf Al
  [ 0]                   NULL            0000000000000000 000000 000000 00      0   0  0
  [ 1] .text             PROGBITS        0000000000000000 000040 000024 00  AX  0   0  2
  [ 2] .rodata           PROGBITS        0000000000000000 000068 000005 00   A  0   0  1
  [ 3] .data             PROGBITS        0000000000000000 000070 000018 00  WA  0   0  1
  [ 4] .bss              NOBITS          0000000000000000 000088 000064 00  WA  0   0  1
  [ 5] .rela.text        RELA            0000000000000000 000088 0000a8 18      8   1  8
  [ 6] .rela.data        RELA            0000000000000000 000130 000030 18      8   3  8
  [ 7] .rv.rows          PROGBITS        0000000000000000 000160 0001e0 00      0   0  1
  [ 8] .symtab           SYMTAB          0000000000000000 000340 0000c0 18      9   5  8
  [ 9] .strtab           STRTAB          0000000000000000 000400 00001e 00      0   0  1
  [10] .shstrtab         STRTAB          0000000000000000 000420 000053 00      0   0  1
{{elf_flags.txt}}

There are no program headers in this file.

Relocation section '.rela.text' at offset 0x88 contains 7 entries:
    Offset             Info             Type               Symbol's Value  Symbol's Name + Addend
0000000000000004  0000000200000013 R_RISCV_CALL_PLT       000000000000001c far + 0
0000000000000004  0000000000000033 R_RISCV_RELAX                             0
000000000000000c  0000000200000010 R_RISCV_BRANCH         000000000000001c far + 0
0000000000000010  000000070000001b R_RISCV_LO12_I         0000000000000000 ext + 0
0000000000000014  0000000300000017 R_RISCV_PCREL_HI20     0000000000000000 msg + 0
0000000000000018  0000000100000018 R_RISCV_PCREL_LO12_I   0000000000000014 <null> + 0
0000000000000020  0000000500000011 R_RISCV_JAL            0000000000000000 _start + 0

Relocation section '.rela.data' at offset 0x130 contains 2 entries:
    Offset             Info             Type               Symbol's Value  Symbol's Name + Addend
0000000000000000  0000000300000002 R_RISCV_64             0000000000000000 msg + 0
0000000000000008  0000000700000002 R_RISCV_64             0000000000000000 ext - 8

Symbol table '.symtab' contains 8 entries:
   Num:    Value          Size Type    Bind   Vis      Ndx Name
     0: 0000000000000000     0 NOTYPE  LOCAL  DEFAULT  UND 
     1: 0000000000000014     0 NOTYPE  LOCAL  DEFAULT    1 
     2: 000000000000001c     0 NOTYPE  LOCAL  DEFAULT    1 far
     3: 0000000000000000     0 NOTYPE  LOCAL  DEFAULT    2 msg
     4: 0000000000000000     0 NOTYPE  LOCAL  DEFAULT    4 buf
     5: 0000000000000000     0 NOTYPE  GLOBAL DEFAULT    1 _start
     6: 0000000000000000     0 NOTYPE  GLOBAL DEFAULT    3 table
     7: 0000000000000000     0 NOTYPE  GLOBAL DEFAULT  UND ext
#--- elf-b.txt
{{elf_object.txt}}
  Start of section headers:          384 (bytes into file)
  Flags:                             0x1, RVC, soft-float ABI
  Size of this header:               64 (bytes)
  Size of program headers:           0 (bytes)
  Number of program headers:         0
  Size of section headers:           64 (bytes)
  Number of section headers:         7
  Section header string table index: 6

Section Headers:
  [Nr] Name              Type            Address          Off    Size   ES Flg Lk Inf Al
  [ 0]                   NULL            0000000000000000 000000 000000 00      0   0  0
  [ 1] .text             PROGBITS        0000000000000000 000040 000002 00  AX  0   0  2
  [ 2] .sdata            PROGBITS        0000000000000000 000048 000008 00  WA  0   0  1
  [ 3] .rv.rows          PROGBITS        0000000000000000 000050 000080 00      0   0  1
  [ 4] .symtab           SYMTAB          0000000000000000 0000d0 000060 18      5   1  8
  [ 5] .strtab           STRTAB          0000000000000000 000130 000011 00      0   0  1
  [ 6] .shstrtab         STRTAB          0000000000000000 000148 000031 00      0   0  1
{{elf_flags.txt}}

There are no program headers in this file.

There are no relocations in this file.

Symbol table '.symtab' contains 4 entries:
   Num:    Value          Size Type    Bind   Vis      Ndx Name
     0: 0000000000000000     0 NOTYPE  LOCAL  DEFAULT  UND 
     1: 0000000000000000     0 NOTYPE  WEAK   DEFAULT    1 maybe
     2: 0000000000000007     0 NOTYPE  GLOBAL DEFAULT  ABS count
     3: 0000000000000000     0 NOTYPE  GLOBAL DEFAULT    2 ext
#--- size-exe.txt
   text	   data	    bss	    dec	    hex	filename
     39	     32	    100	    171	     ab	exe
#--- nm-exe.txt
0000000000012020 B __bss_start
0000000000012800 A __global_pointer$
0000000000012020 D _edata
0000000000012084 B _end
0000000000010022 T _etext
0000000000010000 T _start
0000000000000007 A count
0000000000012018 D ext
0000000000010020 T maybe
0000000000012000 D table
#--- elf-exe.txt
{{elf_ident.txt}}
  Type:                              EXEC (Executable file)
  Machine:                           RISC-V
  Version:                           0x1
  Entry point address:               0x10000
  Start of program headers:          64 (bytes into file)
  Start of section headers:          0 (bytes into file)
  Flags:                             0x1, RVC, soft-float ABI
  Size of this header:               64 (bytes)
  Size of program headers:           56 (bytes)
  Number of program headers:         3
  Size of section headers:           0 (bytes)
  Number of section headers:         0
  Section header string table index: 0

There are no sections in this file.

Program Headers:
  Type           Offset   VirtAddr           PhysAddr           FileSiz  MemSiz   Flg Align
  LOAD           0x001000 0x0000000000010000 0x0000000000010000 0x000022 0x000022   E 0x1000
  LOAD           0x002000 0x0000000000011000 0x0000000000011000 0x000005 0x000005 R   0x1000
  LOAD           0x003000 0x0000000000012000 0x0000000000012000 0x000020 0x000084 RW  0x1000

There are no relocations in this file.
