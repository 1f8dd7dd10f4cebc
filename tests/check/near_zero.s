# Loads and stores at x0, whatever their number and whether sp is used: no program has data there.
# rv: check a.s
# errors:
# out is: wanted
#--- a.s
.globl _start
_start: lw a1, 3(zero)
lw a1, 4(zero)
sb a1, (x0)
sd a1, -8(zero)
jalr 4(zero)
#--- wanted
text 20, rodata 0, data 0, bss 0 bytes
a.s:2: warning: no program has data near address 0, so the run ends here
    _start: lw a1, 3(zero)
                     ^^^^
a.s:3: warning: no program has data near address 0, so the run ends here
    lw a1, 4(zero)
             ^^^^
a.s:4: warning: no program has data near address 0, so the run ends here
    sb a1, (x0)
            ^^
a.s:5: warning: no program has data near address 0, so the run ends here
    sd a1, -8(zero)
              ^^^^
