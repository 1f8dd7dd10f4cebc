# A source that is too long has no line to show.
# rv: check a.s
# status: 1
# errors:
# out: a.s:0: E17 Limit\n1 fault\n
#--- a.s
{{16777217 * \n}}
