# The lines of compilers, and objects of JSON: what is wrong with two sources, a fault of the link, and warnings.
# rv: check --format=gcc a.s b.s
# status: 1
# errors:
# out is: gcc
# rv: check --format=json a.s b.s
# status: 1
# errors:
# out is: json
# rv: check --format gcc c.s
# status: 1
# errors:
# out is: link.gcc
# rv: check --format json d.s
# status: 1
# errors:
# out is: entry.json
# rv: check --format gcc d.s
# status: 1
# errors:
# out is: entry.gcc
# rv: check --format gcc e.s
# errors:
# out is: warning.gcc
# rv: check --format json e.s
# errors:
# out is: warning.json
# rv: check --format xml e.s
# status: 2
# errors has: error: a format is gcc or json
#--- a.s
.globl _start
_start: addi a0, zero, 5000
	.ascii "a\q"
#--- b.s
foo
#--- c.s
.globl _start
_start: nop
call f
#--- d.s
nop
#--- e.s
.globl _start
_start: ret
lost: ret
#--- gcc
a.s:3:9: error: the string has an escape that there is not: \n, \t, \\, \" and \x41 are some [E2]
a.s:2:24: error: addi takes -2048 to 2047 here, 5000 is too large; li a0, 5000 loads it [E14]
b.s:1:1: error: foo is the name of no instruction: a label ends with a colon, foo: [E6]
#--- json
{"code":"E2","column":9,"file":"a.s","line":3,"message":"the string has an escape that there is not: \\n, \\t, \\\\, \\\" and \\x41 are some","severity":"error"}
{"code":"E14","column":24,"file":"a.s","line":2,"message":"addi takes -2048 to 2047 here, 5000 is too large; li a0, 5000 loads it","severity":"error"}
{"code":"E6","column":1,"file":"b.s","line":1,"message":"foo is the name of no instruction: a label ends with a colon, foo:","severity":"error"}
#--- link.gcc
c.s:3:6: error: the name means nothing here: a source has to define it in a loaded section, with .globl [L5]
#--- entry.json
{"code":"L7","column":null,"file":null,"line":null,"message":"a program begins at _start: one source needs .globl _start, and the label in .text","severity":"error"}
#--- entry.gcc
rv: error: a program begins at _start: one source needs .globl _start, and the label in .text [L7]
#--- warning.gcc
e.s:3:1: warning: nothing in this source refers to lost
#--- warning.json
{"code":null,"column":1,"file":"e.s","line":3,"message":"nothing in this source refers to lost","severity":"warning"}
