#!/bin/sh
# The assembler of GCC: `rv as`, which reads standard input where the words name no source, as GCC's -pipe has it.

source=/dev/stdin
named=
for word; do
  if [ "$named" ]; then
    named=
    continue
  fi
  case $word in
    -o | -I) named=yes ;;
    -*) ;;
    *) source= ;;
  esac
done
exec "${0%/*}/../../bin/rv" as "$@" ${source:+"$source"}
