/* A plain interpreter of RV64IMAC: the yardstick for rv run. It keeps the same rules: each instruction is decoded anew,
   each access is tested for its right by segment, the segment of the latest access is looked at first, each step
   counts against a limit, and the calls are read, write and exit. A parcel is expanded to its word.

   interpreter FILE [LIMIT] ends with the program's status, or with 125; the count of its steps is on standard error. */

#include <elf.h>
#include <stdint.h>
#include <stdio.h>
#include <stdlib.h>
#include <string.h>
#include <unistd.h>

typedef uint64_t u64;
typedef int64_t i64;
typedef uint32_t u32;
typedef int32_t i32;
typedef uint16_t u16;
typedef uint8_t u8;
typedef unsigned __int128 u128;
typedef __int128 i128;

#define STACK_START 0x3FF00000ull
#define STACK_BYTES 0x100000ull
#define SEGMENTS 16

struct segment {
    u64 address, length;
    u32 flags;
    u8 *bytes;
};

static struct segment segments[SEGMENTS];
static int segment_count;
static struct segment *code, *data, *stack;

static u64 x[32], pc, reserved_address, reserved_bytes;

/* The bytes from an address on, where one segment has them and gives the right. */
static u8 *part(struct segment *segment, u64 address, u64 count, u32 right)
{
    u64 at = address - segment->address;
    if (at >= segment->length || segment->length - at < count || !(segment->flags & right))
        return NULL;
    return segment->bytes + at;
}

static u8 *search(struct segment **latest, u64 address, u64 count, u32 right)
{
    for (int i = 0; i < segment_count; i++) {
        u8 *found = part(&segments[i], address, count, right);
        if (found) {
            *latest = &segments[i];
            return found;
        }
    }
    return NULL;
}

static u8 *fetched(u64 count)
{
    u8 *found = part(code, pc, count, PF_X);
    return found ? found : search(&code, pc, count, PF_X);
}

static u8 *access_to(u64 address, u64 count, u32 right)
{
    u8 *found = part(address - STACK_START < STACK_BYTES ? stack : data, address, count, right);
    return found ? found : search(&data, address, count, right);
}

static void end(const char *why, u64 address)
{
    fprintf(stderr, "interpreter: %s %lx\n", why, address);
    exit(125);
}

static u64 load(u64 address, u64 count)
{
    u64 value = 0;
    u8 *from = access_to(address, count, PF_R);
    if (!from)
        end("LoadOutside", address);
    memcpy(&value, from, count);
    return value;
}

static void store(u64 address, u64 count, u64 value)
{
    u8 *to = access_to(address, count, PF_W);
    if (!to)
        end("StoreOutside", address);
    memcpy(to, &value, count);
}

/* Bits `low` and those above it, so many, of a word. */
static u32 bits(u32 word, int low, int count) { return word >> low & ((1u << count) - 1); }

/* The low so many bits of a number as a number with sign. */
static i64 signed_of(u64 value, int count) { return (i64)(value << (64 - count)) >> (64 - count); }

static i64 immediate_i(u32 word) { return (i32)word >> 20; }
static i64 immediate_s(u32 word) { return signed_of(bits(word, 7, 5) | bits(word, 25, 7) << 5, 12); }
static i64 immediate_u(u32 word) { return (i32)(word & 0xFFFFF000); }

static i64 immediate_b(u32 word)
{
    return signed_of(bits(word, 8, 4) << 1 | bits(word, 25, 6) << 5 | bits(word, 7, 1) << 11 | bits(word, 31, 1) << 12, 13);
}

static i64 immediate_j(u32 word)
{
    return signed_of(bits(word, 21, 10) << 1 | bits(word, 20, 1) << 11 | bits(word, 12, 8) << 12 | bits(word, 31, 1) << 20, 21);
}

/* Words of the formats. */
static u32 of_r(u32 opcode, u32 funct3, u32 funct7, u32 rd, u32 rs1, u32 rs2)
{
    return opcode | rd << 7 | funct3 << 12 | rs1 << 15 | rs2 << 20 | funct7 << 25;
}

static u32 of_i(u32 opcode, u32 funct3, u32 rd, u32 rs1, i64 value) { return opcode | rd << 7 | funct3 << 12 | rs1 << 15 | (u32)value << 20; }

static u32 of_s(u32 funct3, u32 rs1, u32 rs2, u32 value)
{
    return 0x23 | bits(value, 0, 5) << 7 | funct3 << 12 | rs1 << 15 | rs2 << 20 | bits(value, 5, 7) << 25;
}

static u32 of_b(u32 funct3, u32 rs1, i64 value)
{
    return 0x63 | bits(value, 11, 1) << 7 | bits(value, 1, 4) << 8 | funct3 << 12 | rs1 << 15 | bits(value, 5, 6) << 25 | bits(value, 12, 1) << 31;
}

static u32 of_j(i64 value)
{
    return 0x6F | bits(value, 12, 8) << 12 | bits(value, 11, 1) << 20 | bits(value, 1, 10) << 21 | bits(value, 20, 1) << 31;
}

/* The word that a parcel stands for, or 0. */
static u32 expanded(u32 parcel)
{
    u32 rd = bits(parcel, 7, 5), rs2 = bits(parcel, 2, 5), short_7 = bits(parcel, 7, 3) + 8, short_2 = bits(parcel, 2, 3) + 8;
    u32 six = rs2 | bits(parcel, 12, 1) << 5;
    i64 value = signed_of(six, 6);
    u32 word_offset = bits(parcel, 6, 1) << 2 | bits(parcel, 10, 3) << 3 | bits(parcel, 5, 1) << 6;
    u32 double_offset = bits(parcel, 10, 3) << 3 | bits(parcel, 5, 2) << 6;
    i64 branch = signed_of(bits(parcel, 3, 2) << 1 | bits(parcel, 10, 2) << 3 | bits(parcel, 2, 1) << 5 | bits(parcel, 5, 2) << 6 | bits(parcel, 12, 1) << 8, 9);
    switch ((parcel & 3) << 3 | parcel >> 13) {
    case 000: {
        u32 offset = bits(parcel, 6, 1) << 2 | bits(parcel, 5, 1) << 3 | bits(parcel, 11, 2) << 4 | bits(parcel, 7, 4) << 6;
        return offset ? of_i(0x13, 0, short_2, 2, offset) : 0;
    }
    case 002: return of_i(0x03, 2, short_2, short_7, word_offset);
    case 003: return of_i(0x03, 3, short_2, short_7, double_offset);
    case 006: return of_s(2, short_7, short_2, word_offset);
    case 007: return of_s(3, short_7, short_2, double_offset);
    case 010: return of_i(0x13, 0, rd, rd, value);
    case 011: return rd ? of_i(0x1B, 0, rd, rd, value) : 0;
    case 012: return of_i(0x13, 0, rd, 0, value);
    case 013:
        if (rd == 2) {
            u32 step = bits(parcel, 6, 1) << 4 | bits(parcel, 2, 1) << 5 | bits(parcel, 5, 1) << 6 | bits(parcel, 3, 2) << 7 | bits(parcel, 12, 1) << 9;
            return step ? of_i(0x13, 0, 2, 2, signed_of(step, 10)) : 0;
        }
        return six ? 0x37 | rd << 7 | (u32)value << 12 : 0;
    case 014:
        switch (bits(parcel, 10, 2)) {
        case 0: return of_i(0x13, 5, short_7, short_7, six);
        case 1: return of_i(0x13, 5, short_7, short_7, six | 0x400);
        case 2: return of_i(0x13, 7, short_7, short_7, value);
        }
        switch (bits(parcel, 12, 1) << 2 | bits(parcel, 5, 2)) {
        case 0: return of_r(0x33, 0, 0x20, short_7, short_7, short_2);
        case 1: return of_r(0x33, 4, 0, short_7, short_7, short_2);
        case 2: return of_r(0x33, 6, 0, short_7, short_7, short_2);
        case 3: return of_r(0x33, 7, 0, short_7, short_7, short_2);
        case 4: return of_r(0x3B, 0, 0x20, short_7, short_7, short_2);
        case 5: return of_r(0x3B, 0, 0, short_7, short_7, short_2);
        }
        return 0;
    case 015:
        return of_j(signed_of(bits(parcel, 3, 3) << 1 | bits(parcel, 11, 1) << 4 | bits(parcel, 2, 1) << 5 | bits(parcel, 7, 1) << 6
            | bits(parcel, 6, 1) << 7 | bits(parcel, 9, 2) << 8 | bits(parcel, 8, 1) << 10 | bits(parcel, 12, 1) << 11, 12));
    case 016: return of_b(0, short_7, branch);
    case 017: return of_b(1, short_7, branch);
    case 020: return of_i(0x13, 1, rd, rd, six);
    case 022: return rd ? of_i(0x03, 2, rd, 2, bits(parcel, 4, 3) << 2 | bits(parcel, 12, 1) << 5 | bits(parcel, 2, 2) << 6) : 0;
    case 023: return rd ? of_i(0x03, 3, rd, 2, bits(parcel, 5, 2) << 3 | bits(parcel, 12, 1) << 5 | bits(parcel, 2, 3) << 6) : 0;
    case 024:
        if (!bits(parcel, 12, 1))
            return rs2 ? of_r(0x33, 0, 0, rd, 0, rs2) : rd ? of_i(0x67, 0, 0, rd, 0) : 0;
        return rs2 ? of_r(0x33, 0, 0, rd, rd, rs2) : rd ? of_i(0x67, 0, 1, rd, 0) : 0x00100073;
    case 026: return of_s(2, 2, rs2, bits(parcel, 9, 4) << 2 | bits(parcel, 7, 2) << 6);
    case 027: return of_s(3, 2, rs2, bits(parcel, 10, 3) << 3 | bits(parcel, 7, 3) << 6);
    }
    return 0;
}

static u64 loaded(u32 funct3, u64 address)
{
    switch (funct3) {
    case 0: return (i64)(signed char)load(address, 1);
    case 1: return (i64)(short)load(address, 2);
    case 2: return (i64)(i32)load(address, 4);
    case 3: return load(address, 8);
    case 4: return load(address, 1);
    case 5: return load(address, 2);
    case 6: return load(address, 4);
    }
    end("Illegal", pc);
    return 0;
}

static u64 with_immediate(u32 word, u64 a)
{
    i64 b = immediate_i(word);
    switch (bits(word, 12, 3)) {
    case 0: return a + b;
    case 1:
        if (word >> 26 == 0)
            return a << bits(word, 20, 6);
        break;
    case 2: return (i64)a < b;
    case 3: return a < (u64)b;
    case 4: return a ^ b;
    case 5:
        if (word >> 26 == 0)
            return a >> bits(word, 20, 6);
        if (word >> 26 == 0x10)
            return (i64)a >> bits(word, 20, 6);
        break;
    case 6: return a | b;
    case 7: return a & b;
    }
    end("Illegal", pc);
    return 0;
}

static u64 word_with_immediate(u32 word, u32 a)
{
    switch (bits(word, 12, 3)) {
    case 0: return (i64)(i32)(a + (u32)immediate_i(word));
    case 1:
        if (word >> 25 == 0)
            return (i64)(i32)(a << bits(word, 20, 5));
        break;
    case 5:
        if (word >> 25 == 0)
            return (i64)(i32)(a >> bits(word, 20, 5));
        if (word >> 25 == 0x20)
            return (i64)((i32)a >> bits(word, 20, 5));
        break;
    }
    end("Illegal", pc);
    return 0;
}

static u64 with_register(u32 word, u64 a, u64 b)
{
    i64 c = a, d = b;
    switch (word >> 25 << 3 | bits(word, 12, 3)) {
    case 0x000: return a + b;
    case 0x001: return a << (b & 63);
    case 0x002: return c < d;
    case 0x003: return a < b;
    case 0x004: return a ^ b;
    case 0x005: return a >> (b & 63);
    case 0x006: return a | b;
    case 0x007: return a & b;
    case 0x008: return a * b;
    case 0x009: return (i128)c * d >> 64;
    case 0x00A: return (i128)c * (i128)b >> 64;
    case 0x00B: return (u128)a * b >> 64;
    case 0x00C: return b == 0 ? -1 : d == -1 ? -a : (u64)(c / d);
    case 0x00D: return b == 0 ? -1 : a / b;
    case 0x00E: return b == 0 ? a : d == -1 ? 0 : (u64)(c % d);
    case 0x00F: return b == 0 ? a : a % b;
    case 0x100: return a - b;
    case 0x105: return c >> (b & 63);
    }
    end("Illegal", pc);
    return 0;
}

static u64 word_with_register(u32 word, u32 a, u32 b)
{
    i32 c = a, d = b;
    switch (word >> 25 << 3 | bits(word, 12, 3)) {
    case 0x000: return (i64)(i32)(a + b);
    case 0x001: return (i64)(i32)(a << (b & 31));
    case 0x005: return (i64)(i32)(a >> (b & 31));
    case 0x008: return (i64)(i32)(a * b);
    case 0x00C: return b == 0 ? -1 : d == -1 ? (i64)(i32)-a : (i64)(c / d);
    case 0x00D: return b == 0 ? -1 : (i64)(i32)(a / b);
    case 0x00E: return b == 0 ? (i64)c : d == -1 ? 0 : (i64)(c % d);
    case 0x00F: return b == 0 ? (i64)c : (i64)(i32)(a % b);
    case 0x100: return (i64)(i32)(a - b);
    case 0x105: return (i64)(c >> (b & 31));
    }
    end("Illegal", pc);
    return 0;
}

static int is_taken(u32 funct3, u64 a, u64 b)
{
    switch (funct3) {
    case 0: return a == b;
    case 1: return a != b;
    case 4: return (i64)a < (i64)b;
    case 5: return (i64)a >= (i64)b;
    case 6: return a < b;
    case 7: return a >= b;
    }
    end("Illegal", pc);
    return 0;
}

static u64 atomic(u32 word, u64 address, u64 value)
{
    u64 count = bits(word, 12, 3) == 2 ? 4 : 8, was_reserved = reserved_address == address && reserved_bytes == count;
    if (bits(word, 12, 3) / 2 != 1)
        end("Illegal", pc);
    if (address % count)
        end("MisalignedAtomic", address);
    if (word >> 27 == 3) {
        if (!access_to(address, count, PF_W))
            end("StoreOutside", address);
        if (was_reserved)
            store(address, count, value);
        reserved_bytes = 0;
        return !was_reserved;
    }
    u64 old = load(address, count), sum;
    if (count == 4)
        old = (i64)(i32)old, value = (i64)(i32)value;
    switch (word >> 27) {
    case 0x02: reserved_address = address, reserved_bytes = count; return old;
    case 0x00: sum = old + value; break;
    case 0x01: sum = value; break;
    case 0x04: sum = old ^ value; break;
    case 0x08: sum = old | value; break;
    case 0x0C: sum = old & value; break;
    case 0x10: sum = (i64)old < (i64)value ? old : value; break;
    case 0x14: sum = (i64)old > (i64)value ? old : value; break;
    case 0x18: sum = old < value ? old : value; break;
    case 0x1C: sum = old > value ? old : value; break;
    default: end("Illegal", pc);
    }
    store(address, count, sum);
    return old;
}

static void call(u64 steps)
{
    u8 *bytes;
    switch (x[17]) {
    case 63:
        bytes = access_to(x[11], x[12], PF_W);
        x[10] = x[10] != 0 ? -9 : x[12] == 0 ? 0 : bytes ? (u64)read(0, bytes, x[12]) : -14;
        break;
    case 64:
        bytes = access_to(x[11], x[12], PF_R);
        x[10] = x[10] != 1 && x[10] != 2 ? -9 : x[12] == 0 ? 0 : bytes ? (u64)write(1, bytes, x[12]) : -14;
        break;
    case 93: fprintf(stderr, "%lu\n", steps); exit(x[10] & 255);
    default: x[10] = -38;
    }
}

static void run(u64 limit)
{
    for (u64 steps = 0; steps < limit; steps++) {
        u32 word = 0;
        u64 length = 4;
        u8 *from = fetched(4);
        if (from)
            memcpy(&word, from, 4);
        else if ((from = fetched(2)))
            memcpy(&word, from, 2);
        else
            end("FetchOutside", pc);
        if ((word & 3) != 3) {
            word = expanded(word & 0xFFFF);
            length = 2;
        }
        u32 rd = bits(word, 7, 5), funct3 = bits(word, 12, 3);
        u64 a = x[bits(word, 15, 5)], b = x[bits(word, 20, 5)], next = pc + length;
        switch (word & 0x7F) {
        case 0x03: x[rd] = loaded(funct3, a + immediate_i(word)); break;
        case 0x0F: break;
        case 0x13: x[rd] = with_immediate(word, a); break;
        case 0x17: x[rd] = pc + immediate_u(word); break;
        case 0x1B: x[rd] = word_with_immediate(word, a); break;
        case 0x23:
            if (funct3 > 3)
                end("Illegal", pc);
            store(a + immediate_s(word), 1 << funct3, b);
            break;
        case 0x2F: x[rd] = atomic(word, a, b); break;
        case 0x33: x[rd] = with_register(word, a, b); break;
        case 0x37: x[rd] = immediate_u(word); break;
        case 0x3B: x[rd] = word_with_register(word, a, b); break;
        case 0x63:
            if (is_taken(funct3, a, b))
                next = pc + immediate_b(word);
            break;
        case 0x67:
            x[rd] = next;
            next = (a + immediate_i(word)) & ~1ull;
            break;
        case 0x6F:
            x[rd] = next;
            next = pc + immediate_j(word);
            break;
        case 0x73:
            if (word != 0x73)
                end(word == 0x00100073 ? "Breakpoint" : "Illegal", pc);
            call(steps + 1);
            break;
        default: end("Illegal", pc);
        }
        x[0] = 0;
        pc = next;
    }
    end("Limit", pc);
}

static struct segment *add(u64 address, u64 length, u32 flags)
{
    if (segment_count == SEGMENTS)
        end("TooManySegments", address);
    struct segment *added = &segments[segment_count++];
    *added = (struct segment){address, length, flags, calloc(length, 1)};
    return added;
}

static void read_program(const char *name)
{
    static u8 file[1 << 24];
    FILE *from = fopen(name, "rb");
    if (!from)
        end("cannot read", 0);
    fread(file, 1, sizeof file, from);
    fclose(from);
    Elf64_Ehdr *header = (Elf64_Ehdr *)file;
    Elf64_Phdr *programs = (Elf64_Phdr *)(file + header->e_phoff);
    for (int i = 0; i < header->e_phnum; i++)
        if (programs[i].p_type == PT_LOAD) {
            struct segment *added = add(programs[i].p_vaddr, programs[i].p_memsz, programs[i].p_flags);
            memcpy(added->bytes, file + programs[i].p_offset, programs[i].p_filesz);
        }
    code = data = segments;
    stack = add(STACK_START, STACK_BYTES, PF_R | PF_W);
    pc = header->e_entry;
    x[2] = STACK_START + STACK_BYTES;
}

int main(int count, char **words)
{
    if (count < 2)
        end("wants a program", 0);
    read_program(words[1]);
    run(count > 2 ? strtoull(words[2], NULL, 10) : 1000000000000);
}
