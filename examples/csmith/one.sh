#!/bin/sh
# Runs the C programs that csmith draws of these seeds, at each level of GCC, by rv and by qemu-riscv64. Prints a line for
# each: ok, or what differs, of which the files stay in seed-SEED-LEVEL. The status says whether all were ok.
#
# one.sh SEED ..
#
# On one processor, on all of a machine, and on several machines, which have this repository in the same folder:
#
#     for seed in $(seq 1 1000); do ./one.sh $seed; done
#     seq 1 1000 | parallel --joblog log ./one.sh
#     seq 1 100000 | parallel --joblog log --resume --sshlogin :,first,second --workdir "$PWD" ./one.sh
#
# It needs rv, riscv64-unknown-elf-gcc, qemu-riscv64, and csmith with its headers (libcsmith-dev of Debian).
headers=$(cd "$(dirname "$0")/../../tests/against/csmith" && pwd)

ran() {
  csmith --seed "$1" --no-argc -o program.c || return
  # (without sections of their own, -O0 writes zeroed variables with .comm)
  riscv64-unknown-elf-gcc -march=rv64imac -mabi=lp64 -ffreestanding -fdata-sections -w \
    -I"$headers" -I/usr/include/csmith "-O$2" -S -o program.s program.c || return
  # (GCC loads the last bytes of an object with those behind it)
  rv build --pad-ends -o program program.s || return
  timeout 10 qemu-riscv64 program >wanted </dev/null
  wanted=$?
  if [ $wanted = 124 ]; then
    echo ok, but too long
    return
  fi
  rv run --limit 4G program >came </dev/null
  came=$?
  if [ $wanted = $came ] && cmp wanted came; then echo ok; else echo "status $wanted of qemu, $came of rv"; fi
}

failed=0
for seed; do
  for level in 0 1 2 3 s; do
    folder=seed-$seed-$level
    mkdir -p "$folder"
    said=$(cd "$folder" && ran "$seed" "$level" 2>&1)
    echo "$seed -O$level: $said"
    case $said in
      ok*) rm -r "$folder" ;;
      *) failed=1 ;;
    esac
  done
done
exit $failed
