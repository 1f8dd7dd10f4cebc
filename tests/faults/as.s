# rv as refuses a source as rv build does.
# rv: as -o a.o a.s
# fault: a.s:2: E6 UnknownMnemonic
# out:
#--- a.s

foo a0
