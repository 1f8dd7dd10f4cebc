# A dump has sixteen bytes a line, and of no bytes no line.
# rv: dump none
# out:
# rv: dump exit7
# out: 00000000: 130570009308d00573000000\n
# rv: dump seventeen
# out: 00000000: 30313233343536373839616263646566\n00000010: ff\n
#--- none hex
#--- exit7 hex
130570009308d00573000000
#--- seventeen hex
30313233343536373839616263646566ff
