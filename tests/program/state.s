# The last state of a run. The digests are those of a plain walk in Python over the bytes of the executable and what the
# program stores: hashlib.sha256 of each page that is not all zeros, its address in 8 bytes before it; and of `abcd`.
# rv: run --state came --until 0x10000 a.s
# status: 0
# out:
# same: came begun
# rv: run --state came a.s
# status: 7
# errors:
# out: abcd
# same: came exited
# rv: run --state came --limit 4 a.s
# status: 125
# error: rv: Limit
# same: came limit
# rv: run --state came --until done a.s
# status: 0
# out: abcd
# same: came reached
# rv: run --state came b.s
# status: 125
# error: rv: LoadOutside 8
# same: came outside
# rv: run --state new c.s
# fault: c.s:1: E6 UnknownMnemonic
#--- a.s
.option norvc
.globl _start
_start: li a0, 1
  la a1, letters
  li a2, 3
  li a7, 64
  ecall
  li a0, 2
  li a2, 4
  addi a2, a2, -3
  addi a1, a1, 3
  ecall
  la t0, word
  li t1, -2
  sd t1, 0(t0)
  sd t1, -8(sp)
done: li a0, 7
  li a7, 93
  ecall
.section .rodata
letters: .ascii "abcd"
.data
word: .dword 0
#--- b.s
.globl _start
_start: lw a0, 8(zero)
#--- c.s
frob
#--- exited
{"address":null,"console":"88d4266fd4e6338d13b845fcf289579d209c897823b9217da3e161936f031589","end":"Exited","instructions":19,"memory":"dc7278f6d43d5c4dc2295de6e0473e7ce9f94df8bfb0519ef52a06f8e7029431","pc":65608,"registers":{"a0":7,"a1":69635,"a2":1,"a3":0,"a4":0,"a5":0,"a6":0,"a7":93,"gp":0,"ra":0,"s0":0,"s1":0,"s10":0,"s11":0,"s2":0,"s3":0,"s4":0,"s5":0,"s6":0,"s7":0,"s8":0,"s9":0,"sp":1073741824,"t0":73728,"t1":"18446744073709551614","t2":0,"t3":0,"t4":0,"t5":0,"t6":0,"tp":0,"zero":0},"status":7}
#--- limit
{"address":null,"console":"e3b0c44298fc1c149afbf4c8996fb92427ae41e4649b934ca495991b7852b855","end":"Limit","instructions":4,"memory":"669db11300541aee12f98befdd8daaf96aee3883181c19b9ec89f652725e5a80","pc":65552,"registers":{"a0":1,"a1":69632,"a2":3,"a3":0,"a4":0,"a5":0,"a6":0,"a7":0,"gp":0,"ra":0,"s0":0,"s1":0,"s10":0,"s11":0,"s2":0,"s3":0,"s4":0,"s5":0,"s6":0,"s7":0,"s8":0,"s9":0,"sp":1073741824,"t0":0,"t1":0,"t2":0,"t3":0,"t4":0,"t5":0,"t6":0,"tp":0,"zero":0},"status":null}
#--- reached
{"address":null,"console":"88d4266fd4e6338d13b845fcf289579d209c897823b9217da3e161936f031589","end":"Reached","instructions":16,"memory":"dc7278f6d43d5c4dc2295de6e0473e7ce9f94df8bfb0519ef52a06f8e7029431","pc":65600,"registers":{"a0":1,"a1":69635,"a2":1,"a3":0,"a4":0,"a5":0,"a6":0,"a7":64,"gp":0,"ra":0,"s0":0,"s1":0,"s10":0,"s11":0,"s2":0,"s3":0,"s4":0,"s5":0,"s6":0,"s7":0,"s8":0,"s9":0,"sp":1073741824,"t0":73728,"t1":"18446744073709551614","t2":0,"t3":0,"t4":0,"t5":0,"t6":0,"tp":0,"zero":0},"status":null}
#--- begun
{"address":null,"console":"e3b0c44298fc1c149afbf4c8996fb92427ae41e4649b934ca495991b7852b855","end":"Reached","instructions":0,"memory":"669db11300541aee12f98befdd8daaf96aee3883181c19b9ec89f652725e5a80","pc":65536,"registers":{"a0":0,"a1":0,"a2":0,"a3":0,"a4":0,"a5":0,"a6":0,"a7":0,"gp":0,"ra":0,"s0":0,"s1":0,"s10":0,"s11":0,"s2":0,"s3":0,"s4":0,"s5":0,"s6":0,"s7":0,"s8":0,"s9":0,"sp":1073741824,"t0":0,"t1":0,"t2":0,"t3":0,"t4":0,"t5":0,"t6":0,"tp":0,"zero":0},"status":null}
#--- outside
{"address":8,"console":"e3b0c44298fc1c149afbf4c8996fb92427ae41e4649b934ca495991b7852b855","end":"LoadOutside","instructions":0,"memory":"ce83c27c4e541784e92bd768f94f37532a8cf52b8cbd68c4d1746889d58afd52","pc":65536,"registers":{"a0":0,"a1":0,"a2":0,"a3":0,"a4":0,"a5":0,"a6":0,"a7":0,"gp":0,"ra":0,"s0":0,"s1":0,"s10":0,"s11":0,"s2":0,"s3":0,"s4":0,"s5":0,"s6":0,"s7":0,"s8":0,"s9":0,"sp":1073741824,"t0":0,"t1":0,"t2":0,"t3":0,"t4":0,"t5":0,"t6":0,"tp":0,"zero":0},"status":null}
