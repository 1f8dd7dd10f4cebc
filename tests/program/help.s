# What rv says of itself, and of each of its words.
# rv: --help
# out is: rv.txt
# rv: run --help
# out is: run.txt
# rv: trace --help
# out is: trace.txt
# rv: stats --help
# out is: stats.txt
# rv: gdb --help
# out is: gdb.txt
# rv: test --help
# out is: test.txt
# rv: batch --help
# out is: batch.txt
# rv: build --help
# out is: build.txt
# rv: as --help
# out is: as.txt
# rv: ld --help
# out is: ld.txt
# rv: map --help
# out is: map.txt
# rv: objdump --help
# out is: objdump.txt
# rv: dis --help
# out is: dis.txt
# rv: list --help
# out is: list.txt
# rv: dump --help
# out is: dump.txt
# rv: size --help
# out is: size.txt
# rv: nm --help
# out is: nm.txt
# rv: elf --help
# out is: elf.txt
# rv: image --help
# out is: image.txt
# rv: check --help
# out is: check.txt
# rv: explain --help
# out is: explain.txt
# rv: completions --help
# out is: completions.txt
#--- rv.txt
Assembles, links and runs bare RISC-V programs (RV64IMAC).

Usage: rv [COMMAND]

Commands:
  run          Runs an executable, or builds sources and runs them
  trace        Runs a program and shows each instruction
  stats        Runs a program and counts what it executes
  gdb          Lets gdb debug a program, forwards and backwards
  test         Runs cases: sources with what must come of them
  batch        Answers calls, an object of JSON a line, in one process
  build        Builds an executable from sources
  as           Assembles a source to an object
  ld           Links objects to an executable
  map          Prints the map of what the sources build
  objdump      Prints the instructions of an executable, statement by statement or as a source
  dis          Prints the instructions of a file, with names, bytes and relocations
  list         Prints the lines of sources, each with its address and its bytes
  dump         Prints the bytes of a file in hexadecimal
  size         Prints the sizes of files: code and constants, variables, zeros
  nm           Prints the names of a file and where they stand
  elf          Prints the header, sections, segments, relocations and symbols of a file
  image        Writes an image of an executable for flash memory
  check        Says what is wrong with sources, and where, without writing anything
  explain      Explains a code: its cause, an example and the cure
  completions  Prints what a shell completes the words of rv by
  help         Print this message or the help of the given subcommand(s)

Options:
  -h, --help     Print help
  -V, --version  Print version

Examples:
  rv run prog.s                             builds a source and runs it
  rv run --report prog.s                    says why a run ended
  rv trace prog.s                           shows each instruction of a run
  rv stats --lines prog.s                   counts what a run executes
  rv gdb prog                               lets gdb debug a run, forwards and backwards
  rv test cases/                            runs programs with what must come of them
  rv batch < calls                          answers many calls in one process
  rv build -o prog --map prog.map prog.s    writes the executable and its map
  rv as -o prog.o prog.s                    writes the object of a source
  rv ld -o prog prog.o other.o              links objects
  rv map prog.s                             shows where each statement stands
  rv objdump --map prog.map prog            shows the instructions of each statement
  rv objdump --raw prog                     shows the text as a source that builds it again
  rv dis prog.o                             shows the instructions of any file, with names
  rv list prog.s                            shows each line with its address and bytes
  rv dump prog                              shows the bytes of a file
  rv size prog.o other.o                    shows the sizes of files
  rv nm prog.o                              shows the names of a file
  rv elf prog                               shows the headers and tables of a file
  rv image --ihex -o prog.hex prog          writes an image for flash memory
  rv check prog.s                           says what is wrong with a source, and where
  rv explain E14                            says what a code means
  rv completions bash                       writes what a shell completes words by

Without words rv does the same as 'rv run -'.
Exit status: 0 done; 1 refused, the fault stands on standard error; 2 wrong words.
'rv run' exits with the guest's status, or with 125 where the guest did not exit.
#--- run.txt
Runs an executable, or builds sources and runs them

Usage: rv run [OPTIONS] <FILE>...

Arguments:
  <FILE>...  An executable, or sources that are built together; - is standard input

Options:
      --limit <N>       The most instructions to execute, as 500k or 10M [default: RV_LIMIT, else 1000G]
      --report          Says how the run ended, and shows the registers and the latest instructions
      --json            Writes JSON, an object a line
      --state <FILE>    Writes as JSON how the run ended: registers, count, digests of memory and console
      --map <F>         The map of the executable, behind which its sources may stand, for symbols and lines
      --explain         Shows below a fault where it stands and why, as on a terminal
      --board <NAME>    Runs on a board: virt has the RAM, the UART and the test device of QEMU's
      --until <SYMBOL>  Ends the run before the instruction of a symbol, or of an address as 0x10008
      --stderr          Writes what the guest writes to descriptor 2 to standard error
  -h, --help            Print help

Examples:
  rv run prog.s
  rv run driver.s answer.s
  rv run --limit 10M prog < input
  rv run --report --map prog.map prog
  rv run --state prog.json --until f prog.s
  rv run --board virt hello.s
  rv run - < prog.s

Standard input is the guest's input, and its console is standard output.

The object of --state has end, status of an exit, address of the end, pc, registers, instructions
executed, and memory and console, both SHA-256 in hexadecimal. That of the console is of all that
the guest wrote; that of memory of each page of 4096 bytes that is not all zeros, by address: its
address in 8 bytes, the lowest first, and its bytes. No file is written where no guest ran.

That of --report --json has end, status, address, access (kind, bytes), at, registers, segments
(start, end, rights), refused and latest; an instruction there has address, symbol, distance, file,
line, instruction and alias, its shortest name. refused has calls, each different one with call, a0
where that names no file, count and at, and others, how many more there were. It stands on standard
error, without 'rv: END'.

Of a run that --until ends, the end is Reached, and the exit status 0. A number above 2^53 is a
text of its digits, and what is not known is null.
#--- trace.txt
Runs a program and shows each instruction

Usage: rv trace [OPTIONS] <FILE>...

Arguments:
  <FILE>...  An executable, or sources that are built together; - is standard input

Options:
      --from <N>        The number of the first instruction that is shown [default: 1]
      --count <N>       How many instructions are shown; the run ends after them
  -o <FILE>             Writes the lines to a file instead of standard error
      --plain           Leaves out numbers, addresses and names of files, so that two traces can be compared
      --events          Writes each step's event in full, for programs
      --map <F>         The map of the executable, behind which its sources may stand, for symbols and lines
      --limit <N>       The most instructions to execute, as 500k or 10M [default: RV_LIMIT, else 1000G]
      --until <SYMBOL>  Ends the run before the instruction of a symbol, or of an address as 0x10008
      --stderr          Writes what the guest writes to descriptor 2 to standard error
  -h, --help            Print help

Examples:
  rv trace prog.s
  rv trace --from 1000 --count 20 prog.s
  rv trace -o prog.trace --map prog.map prog
  rv trace --plain --until f prog.s
  rv trace --events -o prog.events prog.s

A line has the instruction's number, address, symbol, bytes and text, what it wrote, where it
loaded or stored, or the bytes of input that a call took, and at the first instruction of a line of
the source that line.

With --plain it has the symbol, the mnemonic with its registers, and the rest; an address of the
program is a symbol, with the distance in data, or stack less the distance from its end, and the
value of lui and auipc is 'part'. So a program at another address has the same lines.

With --events a line is the event of a step, and different events have different lines: the
address; how many bytes the instruction has, and its word, of a c. instruction that of the one it
stands for, or 'no right' or 'no instruction'; and where there is one, what was read '[A] -> N',
the register that was set 'x10 <- N', what was stored '[A] <- N', the bytes that a call took
'input 6162' or put 'output 6869', and how the step ended the run 'end Exited 07'. Numbers are
hexadecimal, and have two digits a byte in what was read or stored.
#--- stats.txt
Runs a program and counts what it executes

Usage: rv stats [OPTIONS] <FILE>...

Arguments:
  <FILE>...  An executable, or sources that are built together; - is standard input

Options:
      --lines           Shows how often each line was executed
      --lcov <FILE>     Writes how often each line was executed as lcov does
      --json            Writes JSON, an object a line
      --map <F>         The map of the executable, behind which its sources may stand, for symbols and lines
      --limit <N>       The most instructions to execute, as 500k or 10M [default: RV_LIMIT, else 1000G]
      --until <SYMBOL>  Ends the run before the instruction of a symbol, or of an address as 0x10008
      --stderr          Writes what the guest writes to descriptor 2 to standard error
  -h, --help            Print help

Examples:
  rv stats prog.s
  rv stats --lines prog.s
  rv stats --lcov prog.info prog.s

The counts stand on standard error, and genhtml draws the file that --lcov names.

The object of --json has instructions, compressed, loads, bytes_read, stores, bytes_written,
branches_taken, branches_not_taken, deepest_stack, kinds, mnemonics, calls (address, symbol,
distance, count), end, status of an exit, and with --lines lines (file, line, count).
#--- gdb.txt
Lets gdb debug a program, forwards and backwards

Usage: rv gdb [OPTIONS] <FILE>...

Arguments:
  <FILE>...  An executable, or sources that are built together

Options:
      --input <F>   The guest's input; it is empty where no file is named
      --output <F>  Writes what the guest writes to a file instead of gdb's console
      --limit <N>   The most instructions to execute, as 500k or 10M [default: RV_LIMIT, else 1000G]
  -h, --help        Print help

Examples:
  gdb -ex 'target remote | rv gdb prog' prog
  gdb -ex 'target remote | rv gdb --input words prog.s'

Standard input and output are gdb's. The guest's input is the file of --input, else empty, and gdb
shows what the guest writes, unless --output names a file.

gdb reads all memory, sets breakpoints and watchpoints, and goes back by reverse-step,
reverse-continue and reverse-finish: the run is run again up to there. A register or a byte that
gdb writes begins a new run at that state, so gdb does not go back beyond it. 'monitor stats' says
where the run stands, and 'monitor limit N' has it stop after N instructions.
#--- test.txt
Runs cases: sources with what must come of them

Usage: rv test [OPTIONS] <FILE>...

Arguments:
  <FILE>...  Cases, or folders of cases

Options:
      --limit <N>     The most instructions to execute, as 500k or 10M [default: RV_LIMIT, else 1000G]
      --json          Writes an object of JSON a line for each case, and one for the sum
      --junit <FILE>  Writes a report in the XML of JUnit as well
  -h, --help          Print help

Examples:
  rv test sum.s
  rv test --limit 10M --junit report.xml cases/

A case says in the comments at its head what must come, as '# exit: 7' or '# console: 10\n'; in a
folder NAME.in and NAME.out are the input and the console of NAME.s.

Status 0 where all cases pass, and 1 where one fails.
#--- batch.txt
Answers calls, an object of JSON a line, in one process

Usage: rv batch [OPTIONS]

Options:
      --limit <N>  The most instructions to execute, as 500k or 10M [default: RV_LIMIT, else 1000G]
  -h, --help       Print help

Example:
  rv batch --limit 1M < calls > answers

A call as {"id": 1, "sources": [TEXT], "input": TEXT, "limit": N, "want": ["console", "end"]}
has its answer on the line of the same number, with the status that 'rv run' would have.
#--- build.txt
Builds an executable from sources

Usage: rv build [OPTIONS] -o <EXE> <SRC>...

Arguments:
  <SRC>...  The sources, in the order of their sections

Options:
  -o <EXE>               The executable to write
      --map <F>          Writes the map as well
  -g                     Adds names and lines for debuggers
      --text-start <N>   The address of the text, decimal or 0x and hexadecimal [default: 0x10000]
      --origin <N>       The address of the text, also behind the stack, such as 0x80000000
      --no-relax         Leaves every call its eight bytes
      --gc-sections      Leaves out sections to which nothing leads from the entry
      --pad-ends         Puts 8 zeros behind constants and variables, as GCC loads past an object's end
      --explain          Shows below a fault where it stands and why, as on a terminal
      --defsym <NAME=N>  Gives a global name a value, as ram_size=64*1024 or heap=_end+16
      --library <FILE>   Takes the members of an archive that define what is still undefined
  -l <NAME>              As --library DIR/libNAME.a
  -L <DIR>               A folder in which -l looks
      --start-group      Goes round the archives up to --end-group until nothing more is taken
      --end-group        Ends a group of archives
  -h, --help             Print help

Example:
  rv build -o prog --map prog.map prog.s
#--- as.txt
Assembles a source to an object

Usage: rv as [OPTIONS] -o <OBJ> <SRC>

Arguments:
  <SRC>  The source

Options:
  -o <OBJ>                  The object to write
      --explain             Shows below a fault where it stands and why, as on a terminal
  -g                        Names the source in the object, for rv ld -g
      --gdwarf-5            As GCC says it: -g
      --gdwarf-4            As GCC says it: -g
      --gdwarf-3            As GCC says it: -g
      --gdwarf-2            As GCC says it: -g
      --gdwarf2             As GCC says it: -g
  -m <OPTION>               As GCC says it: arch=rv64imac, abi=lp64, isa-spec=20191213, no-relax
  -f <OPTION>               As GCC says it: no-pic
  -I <DIR>                  As GCC says it; no source includes a file
      --traditional-format  As GCC says it; explains a fault, as --explain does
  -W                        As GCC says it; has no effect
  -v                        As GCC says it; has no effect
  -h, --help                Print help

Examples:
  rv as -o prog.o prog.s
  riscv64-unknown-elf-gcc -B PREFIX/libexec/rv/ -march=rv64imac -mabi=lp64 -c prog.c

What GCC says of the code that it made is taken where it agrees with RV64IMAC and lp64.
-mno-relax leaves every call its eight bytes.
#--- ld.txt
Links objects to an executable

Usage: rv ld [OPTIONS] -o <EXE> [OBJ]...

Arguments:
  [OBJ]...  The objects, in the order of their sections

Options:
  -o <EXE>               The executable to write
      --map <F>          Writes the map as well
  -g                     Adds names and lines for debuggers
      --text-start <N>   The address of the text, decimal or 0x and hexadecimal [default: 0x10000]
      --origin <N>       The address of the text, also behind the stack, such as 0x80000000
      --no-relax         Leaves every call its eight bytes
      --gc-sections      Leaves out sections to which nothing leads from the entry
      --pad-ends         Puts 8 zeros behind constants and variables, as GCC loads past an object's end
      --explain          Shows below a fault where it stands and why, as on a terminal
      --defsym <NAME=N>  Gives a global name a value, as ram_size=64*1024 or heap=_end+16
      --library <FILE>   Takes the members of an archive that define what is still undefined
  -l <NAME>              As --library DIR/libNAME.a
  -L <DIR>               A folder in which -l looks
      --start-group      Goes round the archives up to --end-group until nothing more is taken
      --end-group        Ends a group of archives
  -h, --help             Print help

Example:
  rv ld -o prog --map prog.map prog.o other.o
  rv ld -o prog prog.o --library libc.a
#--- map.txt
Prints the map of what the sources build

Usage: rv map [OPTIONS] <SRC>...

Arguments:
  <SRC>...  The sources, in the order of their sections

Options:
      --text-start <N>   The address of the text, decimal or 0x and hexadecimal [default: 0x10000]
      --origin <N>       The address of the text, also behind the stack, such as 0x80000000
      --no-relax         Leaves every call its eight bytes
      --gc-sections      Leaves out sections to which nothing leads from the entry
      --pad-ends         Puts 8 zeros behind constants and variables, as GCC loads past an object's end
      --explain          Shows below a fault where it stands and why, as on a terminal
      --defsym <NAME=N>  Gives a global name a value, as ram_size=64*1024 or heap=_end+16
  -h, --help             Print help

Example:
  rv map --text-start 0x20000 prog.s
#--- objdump.txt
Prints the instructions of an executable, statement by statement or as a source

Usage: rv objdump [OPTIONS] <EXE>

Arguments:
  <EXE>  The executable

Options:
      --map <F>  The map of the executable
      --raw      Prints a source that builds the same text again
  -h, --help     Print help

Examples:
  rv objdump --map prog.map prog
  rv objdump --raw prog > again.s
#--- dump.txt
Prints the bytes of a file in hexadecimal

Usage: rv dump <FILE>

Arguments:
  <FILE>  Any file

Options:
  -h, --help  Print help

Example:
  rv dump prog
#--- size.txt
Prints the sizes of files: code and constants, variables, zeros

Usage: rv size [OPTIONS] <FILE>...

Arguments:
  <FILE>...  Objects and executables

Options:
      --json  Writes JSON, an object a line
  -h, --help  Print help

Example:
  rv size prog.o other.o prog

Several files have a line of their total.
The objects of --json have file, text, data and bss, and no total.
#--- nm.txt
Prints the names of a file and where they stand

Usage: rv nm [OPTIONS] <FILE>

Arguments:
  <FILE>  An object, or an executable

Options:
      --map <F>  The map of the executable, which has its names
      --json     Writes JSON, an object a line
  -h, --help     Print help

Examples:
  rv nm prog.o
  rv nm --map prog.map prog

The objects of --json have name, letter, and value or null.
#--- elf.txt
Prints the header, sections, segments, relocations and symbols of a file

Usage: rv elf <FILE>

Arguments:
  <FILE>  An object or an executable

Options:
  -h, --help  Print help

Example:
  rv elf prog.o
#--- image.txt
Writes an image of an executable for flash memory

Usage: rv image [OPTIONS] -o <OUT> <EXE>

Arguments:
  <EXE>  The executable

Options:
      --bin          Raw bytes, from the lowest address on
      --ihex         Intel HEX
      --srec         Motorola S-records
      --vhex         What Verilog's $readmemh reads
      --fill <BYTE>  Fills the gaps between segments [default: none, in a binary 0]
  -o <OUT>           The image to write
  -h, --help         Print help

Examples:
  rv image --bin -o prog.bin prog
  rv image --ihex -o prog.hex prog
  rv image --srec --fill 0xff -o prog.srec prog

An image has what the file holds of its segments, at their physical addresses.
#--- check.txt
Says what is wrong with sources, and where, without writing anything

Usage: rv check [OPTIONS] <SRC>...

Arguments:
  <SRC>...  The sources, in the order of their sections

Options:
      --format <FORMAT>  gcc: lines as compilers write them, for editors; json: an object a line
      --json             Writes JSON, an object a line
      --text-start <N>   The address of the text, decimal or 0x and hexadecimal [default: 0x10000]
      --origin <N>       The address of the text, also behind the stack, such as 0x80000000
      --no-relax         Leaves every call its eight bytes
      --gc-sections      Leaves out sections to which nothing leads from the entry
  -h, --help             Print help

Examples:
  rv check prog.s
  rv check --format=gcc prog.s

Status 0 where the sources can be built, and 1 where they have a fault.
#--- explain.txt
Explains a code: its cause, an example and the cure

Usage: rv explain [CODE]

Arguments:
  [CODE]  A code as E14, or the name of an end of a run; without it all are listed

Options:
  -h, --help  Print help

Examples:
  rv explain E14
  rv explain FetchOutside
  rv explain
#--- completions.txt
Prints what a shell completes the words of rv by

Usage: rv completions <SHELL>

Arguments:
  <SHELL>  bash, zsh or fish

Options:
  -h, --help  Print help

Examples:
  rv completions bash > /usr/share/bash-completion/completions/rv
  rv completions zsh > /usr/share/zsh/site-functions/_rv
  rv completions fish > /usr/share/fish/vendor_completions.d/rv.fish
#--- dis.txt
Prints the instructions of a file, with names, bytes and relocations

Usage: rv dis [OPTIONS] <FILE>

Arguments:
  <FILE>  An object, or an executable

Options:
      --map <F>  The map of the executable, which has its names
      --base     Shows base instructions and no aliases
      --lines    Shows the lines of source before their code, of an executable with line tables
  -h, --help     Print help

Examples:
  rv dis prog.o
  rv dis --map prog.map prog
  rv dis --base prog.o
  rv dis --lines prog

The columns are those of GNU's objdump -d -r.
#--- list.txt
Prints the lines of sources, each with its address and its bytes

Usage: rv list [OPTIONS] <SRC>...

Arguments:
  <SRC>...  The sources, in the order of their sections

Options:
      --all             Shows all bytes of a line, and not the first rows alone
  -g                    Takes what GCC writes with -g: .loc, .file N, .uleb128, .sleb128
      --text-start <N>  The address of the text, decimal or 0x and hexadecimal [default: 0x10000]
      --origin <N>      The address of the text, also behind the stack, such as 0x80000000
      --no-relax        Leaves every call its eight bytes
      --gc-sections     Leaves out sections to which nothing leads from the entry
  -h, --help            Print help

Examples:
  rv list prog.s
  rv list --all prog.s other.s

The columns are those of GNU's as -al; the addresses are those of the executable.
