# Of a long line the part around the carets is shown.
# rv: check a.s
# status: 1
# errors:
# out is: wanted
#--- a.s
.data
.byte 1, 1, 1, 1, 1, 1, 1, 1, 1, 1, 1, 1, 1, 1, 1, 1, 1, 1, 1, 1, 1, 1, 1, 1, 1, 1, 1, 1, 1, 1, 1, 1, 1, 1, 1, 1, 1, 1, 1, 1, 1, 1, 1, 1, 1, 1, 1, 1, 1, 1, 1, 1, 1, 1, 1, 1, 1, 1, 1, 1, 1, 1, 1, 1, 1, 1, 1, 1, 1, 1, 1, 1, 1, 1, 1, 1, 1, 1, 1, 1, 1, 1, 1, 1, 1, 1, 1, 1, 1, 1, 1, 1, 1, 1, 1, 1, 1, 1, 1, 1, "x"
#--- wanted
a.s:2: E9 UnsupportedHere
     1, 1, 1, 1, 1, 1, 1, 1, 1, 1, 1, 1, 1, "x"
                                            ^^^
  .byte with "x" is left out of this language
1 fault
