# Twenty faults are shown.
# rv: check a.s
# status: 1
# errors:
# out is: wanted
#--- a.s
{{22 * foo\n}}
#--- wanted
{{20 * a.s:\#: E6 UnknownMnemonic\n    foo\n    ^^^\n  foo is the name of no instruction: a label ends with a colon, foo:\n}}20 faults, and more
