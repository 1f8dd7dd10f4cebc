# A link takes 1,024 objects, each of which may be empty.
# fault: L7 EntryMissing
#--- a.o object * 1024
