# A link takes 1,024 objects, and the count is found before the start of the text.
# options: --text-start 4097
# fault: L10 TooManyFiles
#--- a.o object * 1025
