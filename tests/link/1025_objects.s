# A link takes 1,024 objects, each of which may be empty.
# fault: L10 TooManyFiles
#--- a.o object * 1025
