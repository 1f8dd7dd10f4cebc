# Bytes of files, and what is not read or is no map; a map is looked at before an executable.
# rv: dump a
# out: 00000000: 616263\n
# errors:
# rv: dump b.s
# out:
# errors:
# rv: objdump --map c.s c
# fault: c.s: cannot read
# out:
# rv: objdump c --map c.s
# fault: c: cannot read
# out:
# rv: objdump --map b.s a
# fault: b.s: not a map
# out:
# rv: dump c
# fault: c: cannot read
# out:
#--- b.s
#--- a hex
616263
