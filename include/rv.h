/* rv.h -- the library of rv: an assembler, a linker, a disassembler and a simulator for RV64IMAC

   What rv does as a program, these functions do in the memory of the caller: they take sources, objects and executables
   as bytes, and put what comes of them into buffers.

       rv_build          sources      an executable, and its map
       rv_as             a source     an object
       rv_ld             objects      an executable, and its map
       rv_run            an executable and an input     the console, the end of the run, and its length
       rv_state          the same, and a number of instructions     registers, pc, memory and console after them
       rv_resume         the same, and a kept state     the state so many instructions behind it, shown and kept
       rv_list           sources      each line with its address and its bytes
       rv_check          sources      their faults and warnings, in JSON
       rv_disassemble    bytes        the text of the first instruction

   Link with -lrv, or with what `pkg-config --cflags --libs rv` says. An example is at the end of this file.

   WHAT IS PROVED.  Each of these functions is written in Rattle, and has a contract that a checker has proved for
   every input: it ends, it touches no memory but the buffers that it is given and blocks of malloc that it frees, and
   it gives exactly what the definitions of the repository say (docs/PROVED.md, crates/rv_library). What rv_list and
   rv_check write as text is tested. Three things stand outside the proofs: rattle_alloc, rattle_realloc and
   rattle_dealloc, which are three lines of C over malloc, realloc and free; the C compiler and the linker that join
   your program with the library; and what your program promises by the rules below.

   BUFFERS.  A buffer is a pointer and a length, in bytes unless its type says otherwise.

     - The caller owns every buffer, before, during and after the call. The library keeps no pointer, no state and no
       memory from one call to the next: there is nothing to initialize and nothing to free.
     - An input is only read. Inputs may overlap each other, and may be the same bytes.
     - A buffer for output is written from its front, as far as it has room, and nothing is written behind its end. A
       buffer for output and a record that is written (struct rv_answer, ..) must not overlap each other, nor any
       input of the same call. If they do, the behaviour is undefined, as that of memcpy is.
     - A length may be 0. Then the pointer is not read through, but it must not be NULL: pass the address of anything,
       as "". (The compiler of the library may rely on a pointer that is not null.) A NULL for a record is undefined,
       too. The packages for Python and Rust never pass one.
     - For texts pass the length without a zero byte at the end; none is written behind a text.

   SEVERAL SOURCES OR OBJECTS come one after the other in one buffer, with an array that has the length of each. The
   lengths have to add up to the buffer's length, else the call is refused with RV_UNFIT. Sources and objects are
   numbered from 1 in that order.

   THREADS.  Any number of threads may call any of these functions at once. They must not be called from a handler of
   a signal, nor from the child of a fork() of a process with threads, since malloc is used.

   STATUSES.  Each function returns one of these. */

#ifndef RV_H
#define RV_H

#include <stddef.h>
#include <stdint.h>

#ifdef __cplusplus
extern "C" {
#endif

#define RV_VERSION "0.2.0"

enum rv_status {
    /* All was done, and all bytes had room. */
    RV_OK = 0,
    /* All was done, but a buffer was too small. The buffers have the front of what there is, and rv_answer has the
       whole lengths, with which the call can be repeated. */
    RV_SMALL = 1,
    /* What was given has a fault: a source, an object, an executable, or the program that they are. rv_answer has its
       code and its place, and the first buffer for output has a line that says so, as far as it has room. The other
       buffers are as they were. */
    RV_REFUSED = 2,
    /* malloc has given no memory. Buffers are as they were; in rv_run, rv_state and rv_resume too. */
    RV_MEMORY = 3,
    /* The arguments do not belong together: lengths that do not add up, a flag that there is not, a name that is no
       UTF-8; in rv_disassemble, bytes that begin with no instruction; in rv_resume, bytes that are no state of this
       run. Buffers are as they were. */
    RV_UNFIT = 4,
    /* The guest has written more than 64 MiB, and more than the caller has room for. */
    RV_TOO_LONG = 5,
    /* It is not known what was taken of the input. This does not happen: the input of this library never comes to it.
       It has a number because no proof says so. */
    RV_UNKNOWN = 6
};

/* What a call says beside its bytes. Each call writes all of it, whatever its status. */
struct rv_answer {
    /* How many bytes there are for the first buffer for output, and how many for the second: also those for which
       there was no room. Of a refused call, the length of the line. */
    uint64_t length;
    uint64_t second_length;
    /* The code of the fault: 'E' of a source, 'F' of a file, 'L' of the link, with its number, as E7 or L5; 0 and 0
       where there is none. docs/manual/faults.md explains each. */
    uint32_t kind;
    uint32_t number;
    /* The source or file that has it, from 1, and the line, from 1; 0 where none has. A source that is too long has
       line 0. */
    uint32_t file;
    uint32_t line;
};

/* The line of a fault is what the program rv writes, but for `rv: ` and the name of the file: ":5: E7 BadOperands" of a
   source, ": F1 Truncated" of a file, "L5 Undefined f" of the link. So for a fault of a source or a file its name comes
   first, and where answer.file is 0 the line is whole. */

/* The flags of rv_build, rv_ld, rv_list and rv_check, as a sum. */
enum rv_flags {
    /* Calls keep their 8 bytes (rv build --no-relax). */
    RV_NO_RELAX = 1,
    /* Sections to which nothing leads from the entry are left out (--gc-sections). */
    RV_GC_SECTIONS = 2,
    /* A map is wanted; without it the executable is made more quickly. */
    RV_MAP = 4
};

/* Where the text of a program begins unless the caller wants another place: a multiple of 4096 below 3ff00000h. */
#define RV_TEXT_START UINT64_C(0x10000)

/* Assembles and links sources.

   `executable` gets an ELF file, and `map`, if flags has RV_MAP, the text of its map (docs/manual/files.md); else
   `map` is as it was. answer->length and answer->second_length are their lengths.

   RV_REFUSED: the first fault, as rv build shows it; its line is in `executable`. */
uint32_t rv_build(const uint8_t *sources, size_t sources_length,
                  const uint64_t *lengths, size_t count,
                  uint64_t text_start, uint32_t flags,
                  uint8_t *executable, size_t executable_room,
                  uint8_t *map, size_t map_room,
                  struct rv_answer *answer);

/* Assembles a source into the ELF file of its object.

   RV_REFUSED: the first fault of the source, which is source 1; its line is in `object`. */
uint32_t rv_as(const uint8_t *source, size_t source_length,
               uint8_t *object, size_t object_room,
               struct rv_answer *answer);

/* Links objects, those of rv_as and those that GNU's tools make for rv64imac. Otherwise as rv_build. The objects of
   sources, linked, are what rv_build makes of the sources. */
uint32_t rv_ld(const uint8_t *objects, size_t objects_length,
               const uint64_t *lengths, size_t count,
               uint64_t text_start, uint32_t flags,
               uint8_t *executable, size_t executable_room,
               uint8_t *map, size_t map_room,
               struct rv_answer *answer);

/* How a run ends. */
enum rv_end_kind {
    RV_EXITED = 0,            /* by the exit call, with a code */
    RV_LIMIT = 1,             /* as many instructions as were allowed were executed */
    RV_BREAKPOINT = 2,        /* by ebreak */
    RV_ILLEGAL = 3,           /* bytes that spell no instruction */
    RV_FETCH_OUTSIDE = 4,     /* bytes that may not be executed */
    RV_LOAD_TEXT = 5,         /* a load of bytes that may be executed alone */
    RV_LOAD_OUTSIDE = 6,      /* a load of other bytes that may not be read */
    RV_STORE_TEXT = 7,        /* a store to bytes that may be executed */
    RV_STORE_OUTSIDE = 8,     /* a store to other bytes that may not be written */
    RV_MISALIGNED_ATOMIC = 9  /* an atomic access off a multiple of its width */
};

struct rv_end {
    /* From RV_ILLEGAL on: the address of the instruction that was fetched, or the first of the access; else 0. */
    uint64_t address;
    uint32_t kind;
    /* Of RV_EXITED, the code, 0 to 255; else 0. */
    uint32_t code;
};

/* Runs an executable with an input, for at most `limit` instructions.

   `console` gets what the program writes, as far as it has room, and answer->length says how many bytes it wrote.
   `end` says how the run ended, and *count how many instructions it took, with the one that ended it. A program that
   reads gets the bytes of `input`, and then the end of its input.

   The console is kept up to 64 MiB, or up to console_room where that is more; a run that writes more is stopped with
   RV_TOO_LONG.

   RV_REFUSED: the executable cannot be loaded; `console` has the line of the fault. `end` and *count are written with
   RV_OK and RV_SMALL alone. */
uint32_t rv_run(const uint8_t *executable, size_t executable_length,
                const uint8_t *input, size_t input_length,
                uint64_t limit,
                uint8_t *console, size_t console_room,
                struct rv_end *end, uint64_t *count, struct rv_answer *answer);

struct rv_state {
    /* x0 to x31. */
    uint64_t registers[32];
    /* The address of the next instruction; of the one that ended the run, where it has ended. */
    uint64_t pc;
    /* How many instructions there were, with the one that ended the run: `steps`, or fewer where it ended before. */
    uint64_t count;
};

/* The rights of a byte of memory, as a sum; those of ELF's segments. */
enum rv_rights {
    RV_EXECUTE = 1,
    RV_WRITE = 2,
    RV_READ = 4
};

/* The state of the run of rv_run after `steps` instructions, or at its end where that comes before. It is a function of
   its arguments: to step forwards ask for one more, to step backwards for one less. Each call runs the program from its
   start, so its time grows with `steps`; rv_resume goes on from a state that was kept.

   An instruction that ends the run is not completed: registers, memory and console are as before it, and `end` says how
   it ended. With steps instructions done and no end, end->kind is RV_LIMIT.

   `memory` gets the bytes at `address` and behind, as many as there is room for, and `rights` their rights, as many
   as there is room for. A byte that the program may neither read nor execute is 0, and has the rights 0. Addresses go
   on from 2^64 - 1 to 0. `console`, answer->length, RV_REFUSED and RV_TOO_LONG are as in rv_run; `state` and `end`
   are written with RV_OK and RV_SMALL alone. */
uint32_t rv_state(const uint8_t *executable, size_t executable_length,
                  const uint8_t *input, size_t input_length,
                  uint64_t steps, uint64_t address,
                  uint8_t *memory, size_t memory_room,
                  uint8_t *rights, size_t rights_room,
                  uint8_t *console, size_t console_room,
                  struct rv_state *state, struct rv_end *end, struct rv_answer *answer);

/* The state that `steps` instructions leave of a state that the caller has kept, shown as rv_state does; `kept` gets it
   as bytes, and answer->second_length says how many they are. `from` is what such a call has put into `kept`, of the same
   executable and input; with a length of 0, the state at the start. So a debugger keeps a state now and then, and steps
   on, or back to one less than it has, from the nearest.

       rv_resume(.., from, length of it, 0, ..)    shows a state that was kept, and runs nothing
       rv_resume(.., from, length of it, 1, ..)    steps

   `console` gets what these steps wrote alone, and state->count is how many they were. Of a run that has ended the state
   before the instruction that ended it is kept, which ends it again.

   A kept state has 296 bytes, and for each 4096 bytes of the program's data and stack that are not as in the executable
   about as many more; its form is that of this version of the library. Nothing in it is believed: whatever bytes `from`
   has are a state of a machine with this executable and input, whether a run comes to it or not, or are refused with
   RV_UNFIT. So is an executable with a segment that may be written and not be read, which no linker makes. The rest is as
   in rv_state; `kept` is written with RV_OK and RV_SMALL alone. */
uint32_t rv_resume(const uint8_t *executable, size_t executable_length,
                   const uint8_t *input, size_t input_length,
                   const uint8_t *from, size_t from_length,
                   uint64_t steps, uint64_t address,
                   uint8_t *memory, size_t memory_room,
                   uint8_t *rights, size_t rights_room,
                   uint8_t *console, size_t console_room,
                   uint8_t *kept, size_t kept_room,
                   struct rv_state *state, struct rv_end *end, struct rv_answer *answer);

/* Builds sources and lists them: each line with its number, its address and the bytes that it became, four on a row
   and at most `rows` rows a line (5 is what GNU as shows). `names` are the names of the sources, each shown above its
   lines: one after the other, with their lengths; there may be fewer of them than sources.

   RV_REFUSED: as in rv_build. */
uint32_t rv_list(const uint8_t *sources, size_t sources_length,
                 const uint64_t *lengths, size_t count,
                 const uint8_t *names, size_t names_length,
                 const uint64_t *name_lengths, size_t name_count,
                 uint64_t text_start, uint32_t flags, uint64_t rows,
                 uint8_t *text, size_t text_room,
                 struct rv_answer *answer);

/* Looks for all faults of sources, up to 20, and for what may be a mistake. Each is a line of JSON, as rv check --json
   writes it:

       {"code":"E7","column":8,"file":"a.s","line":5,"message":"..","severity":"error"}

   Members that are not known are null. RV_OK and RV_SMALL come whether there are faults or not; where there are,
   answer->kind, number, file and line are those of the first, which is the one that rv_build answers. `names` are as in
   rv_list. */
uint32_t rv_check(const uint8_t *sources, size_t sources_length,
                  const uint64_t *lengths, size_t count,
                  const uint8_t *names, size_t names_length,
                  const uint64_t *name_lengths, size_t name_count,
                  uint64_t text_start, uint32_t flags,
                  uint8_t *findings, size_t findings_room,
                  struct rv_answer *answer);

/* The text of the instruction at the front of bytes, as "addi a0,zero,7"; what compressed code stands for is shown as
   the instruction of four bytes. Targets are shown as addresses, for an instruction that stands at `address`. *taken
   is 2 or 4, the bytes that the instruction has.

   RV_UNFIT: the bytes begin with no instruction, or are too few; *taken is 0. */
uint32_t rv_disassemble(const uint8_t *bytes, size_t bytes_length,
                        uint64_t address,
                        uint8_t *text, size_t text_room,
                        uint64_t *taken, struct rv_answer *answer);

/* An example: the exit code of a program of one source, or -1.

       int exit_code(const char *source)
       {
           static _Thread_local uint8_t executable[1 << 16], console[4096];
           const uint64_t length = strlen(source);
           struct rv_answer answer;
           struct rv_end end;
           uint64_t count;

           if (rv_build((const uint8_t *)source, length, &length, 1, RV_TEXT_START, 0,
                        executable, sizeof executable, console, 0, &answer) != RV_OK)
               return -1;
           if (rv_run(executable, answer.length, (const uint8_t *)"", 0, 1000000,
                      console, sizeof console, &end, &count, &answer) > RV_SMALL)
               return -1;
           return end.kind == RV_EXITED ? (int)end.code : -1;
       }

   examples/library has programs in C, C++, Rust and Python. */

#ifdef __cplusplus
}
#endif

#endif
