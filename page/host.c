// The C functions that a proved program calls, for WebAssembly with 64-bit pointers: a heap, and the few system calls that the
// programs make, which the JavaScript host answers. This file replaces the kit's archives libos_c.a and liblibc_c.a, and the C
// library. No proof covers it; tests/page-parts/heap.mjs and calls.mjs test it.
//
// The kit's libc/src/heap.rt is the contract of the heap: sizes are below 2^63, alignments divide 16, and the pointer is never
// null, even if the call is refused.

typedef unsigned char u8;
typedef unsigned short u16;
typedef unsigned int u32;
typedef unsigned long usize;
typedef long isize;
_Static_assert(sizeof(void *) == 8 && sizeof(usize) == 8, "the proofs are about pointers and sizes of 64 bits");

// --- the host --------------------------------------------------------------------------------------------------------
// A call that fails returns the error's number on Linux, negated.

#define HOST(name) __attribute__((import_module("host"), import_name(#name)))
HOST(read) isize host_read(int file, u8 *at, usize room);             // how many bytes it read, 0 at the end
HOST(write) isize host_write(int file, const u8 *at, usize length);   // how many bytes it wrote
HOST(open) int host_open(const u8 *name, usize length, int flags);    // a descriptor
HOST(close) int host_close(int file);                                 // 0
HOST(rename) int host_rename(const u8 *from, usize from_length, const u8 *to, usize to_length); // 0
HOST(unlink) int host_unlink(const u8 *name, usize length);           // 0
HOST(stat) isize host_stat(const u8 *name, usize length);             // twice the file's number, plus 1 for a folder
HOST(arg) isize host_arg(usize index, u8 *at, usize room);            // its length; -1: there is no such word; -2: it does not fit
HOST(isatty) int host_isatty(int file);                               // 1 or 0
HOST(clock) isize host_clock(int clock);                              // nanoseconds

enum { NOT_FOUND = 2 };

// --- the heap --------------------------------------------------------------------------------------------------------
// Blocks follow one another without a gap, from the end of the program's own data to the end of the memory. Each has a size,
// with two flags in its lowest bits. A free block is in the list of its class, and the block after it has its size too; two
// free blocks are never neighbours. The bytes that the program gets begin after `size` and end after the `before` of the next
// block, which needs that field only while this block is free. So a block in use costs eight bytes, rounded up to 16.

typedef struct Block Block;
struct Block {
    usize before;           // the size of the block before this one, if that is free
    usize size;             // in bytes, a multiple of 16, and the flags
    Block *next, *previous; // in the list of its class, if it is free
};

enum { USED = 1, AFTER_USED = 2, FLAGS = 15 };
enum { HEAD = 16, KEPT = 8, LEAST = sizeof(Block), PAGE = 65536 };
#define MOST (1UL << 31)

extern u8 __heap_base;
static Block *end;       // after the last block; its size is 0
static Block *lists[64]; // the free blocks of each class
static usize present;    // which lists are not empty

static usize length_of(const Block *it) { return it->size & ~(usize)FLAGS; }
static _Bool is_free(const Block *it) { return !(it->size & USED); }
static Block *after(const Block *it) { return (Block *)((u8 *)it + length_of(it)); }
static Block *before(const Block *it) { return (Block *)((u8 *)it - it->before); }
static u8 *given(const Block *it) { return (u8 *)it + HEAD; }
static Block *block_of(const u8 *at) { return (Block *)(at - HEAD); }

// The size of a block that has room for `n` bytes.
static usize size_for(usize n) {
    usize size = (n + KEPT + 15) & ~15UL;
    return size < LEAST ? LEAST : size;
}

// The class of a size from LEAST to MOST: each power of two has two classes.
static int class_of(usize size) {
    int power = 63 - __builtin_clzl(size);
    return 2 * power + (int)(size >> (power - 1) & 1);
}

static void put_in_list(Block *it) {
    int class = class_of(length_of(it));
    it->previous = 0;
    it->next = lists[class];
    if (it->next) it->next->previous = it;
    lists[class] = it;
    present |= 1UL << class;
}

static void take_from_list(Block *it) {
    int class = class_of(length_of(it));
    if (it->next) it->next->previous = it->previous;
    if (it->previous) {
        it->previous->next = it->next;
        return;
    }
    lists[class] = it->next;
    if (!it->next) present &= ~(1UL << class);
}

// Frees a block in use, and merges it with its free neighbours.
static void release(Block *it) {
    usize size = length_of(it);
    Block *next = after(it);
    if (is_free(next)) {
        take_from_list(next);
        size += length_of(next);
    }
    if (!(it->size & AFTER_USED)) {
        it = before(it);
        take_from_list(it);
        size += length_of(it);
    }
    it->size = size | AFTER_USED;
    put_in_list(it);
    after(it)->before = size;
    after(it)->size &= ~(usize)AFTER_USED;
}

// Returns a free block of at least this size, or null.
static Block *find(usize size) {
    int class = class_of(size);
    for (Block *it = lists[class]; it; it = it->next) {
        if (length_of(it) >= size) return it;
    }
    usize larger = present & -2UL << class;
    return larger ? lists[__builtin_ctzl(larger)] : 0;
}

static usize memory_size(void) { return __builtin_wasm_memory_size(0) * PAGE; }

// Adds this many bytes after the end to the heap.
static void adopt(usize size) {
    if (size < LEAST) return;
    Block *it = end;
    it->size = size | USED | (it->size & AFTER_USED);
    end = after(it);
    end->size = USED | AFTER_USED;
    release(it);
}

static void begin(void) {
    end = (Block *)(((usize)&__heap_base + 15) & ~15UL);
    end->size = USED | AFTER_USED;
    adopt(memory_size() - HEAD - (usize)end);
}

// Grows the memory so that the last block is free and has this size, if possible: by a quarter of the memory if that is more.
static void grow(usize size) {
    usize spare = end->size & AFTER_USED ? 0 : end->before;
    usize pages = (size - spare + PAGE - 1) / PAGE, quarter = memory_size() / PAGE / 4;
    // (The result is not used: binaryen's lowering turns -1 into 2^32 - 1.)
    __builtin_wasm_memory_grow(0, pages > quarter ? pages : quarter);
    if (memory_size() - HEAD == (usize)end) __builtin_wasm_memory_grow(0, pages);
    adopt(memory_size() - HEAD - (usize)end);
}

// Frees what a block in use has beyond this size.
static void cut(Block *it, usize size) {
    usize rest = length_of(it) - size;
    if (rest < LEAST) return;
    it->size -= rest;
    Block *other = after(it);
    other->size = rest | USED | AFTER_USED;
    release(other);
}

// Returns a block in use of at least this size, or null.
static Block *take(usize size) {
    if (!end) begin();
    Block *it = find(size);
    if (!it) {
        grow(size);
        it = find(size);
        if (!it) return 0;
    }
    take_from_list(it);
    it->size |= USED;
    after(it)->size |= AFTER_USED;
    cut(it, size);
    return it;
}

// Makes a block in use at least this large without moving it, if possible.
static _Bool widen(Block *it, usize size) {
    if (length_of(it) >= size) return 1;
    Block *next = after(it);
    usize free = is_free(next) ? length_of(next) : 0;
    if (length_of(it) + free < size) {
        if ((Block *)((u8 *)next + free) != end) return 0;
        grow(size - length_of(it));
        next = after(it);
        free = is_free(next) ? length_of(next) : 0;
        if (length_of(it) + free < size) return 0;
    }
    take_from_list(next);
    it->size += free;
    after(it)->size |= AFTER_USED;
    return 1;
}

// (The program reads all eight bytes of each field.)
typedef struct { usize is_given; u8 *at; } Answer;
static u8 nothing;

static Answer answer(const Block *it) {
    return it ? (Answer){1, given(it)} : (Answer){0, &nothing};
}

// Returns new memory of n bytes.
Answer rattle_alloc(usize n, usize align) {
    return answer(n <= MOST - LEAST ? take(size_for(n)) : 0);
}

// Makes a block one of n bytes, which may move, and keeps its first `kept` bytes. If that is refused, it is unchanged.
Answer rattle_realloc(u8 *at, usize kept, usize n, usize align) {
    if (n > MOST - LEAST) return answer(0);
    Block *it = block_of(at);
    usize size = size_for(n);
    if (widen(it, size)) {
        cut(it, size);
        return answer(it);
    }
    Block *other = take(size);
    if (!other) return answer(0);
    __builtin_memcpy(given(other), at, kept);
    release(it);
    return answer(other);
}

void rattle_dealloc(u8 *at) {
    release(block_of(at));
}

// --- files, streams, words -------------------------------------------------------------------------------------------

static int error;
int rattle_errno(void) { return error; }
void rattle_set_errno(int number) { error = number; }

// Turns the host's answer into that of the C library.
static isize judged(isize answer) {
    if (answer >= 0) return answer;
    error = (int)-answer;
    return -1;
}

// The same for a count of bytes. A count above the room would have the program read beyond it, so it traps.
static isize counted(isize answer, usize room) {
    if (answer > 0 && (usize)answer > room) __builtin_trap();
    return judged(answer);
}

usize strlen(const u8 *text) {
    usize length = 0;
    while (text[length]) ++length;
    return length;
}

isize read(int file, u8 *at, usize room) { return counted(host_read(file, at, room), room); }
isize write(int file, const u8 *at, usize length) { return counted(host_write(file, at, length), length); }
isize __write(int file, const u8 *at, usize length) { return write(file, at, length); }
int open(const u8 *name, int flags, ...) { return judged(host_open(name, strlen(name), flags)); }
int close(int file) { return judged(host_close(file)); }
int rename(const u8 *from, const u8 *to) { return judged(host_rename(from, strlen(from), to, strlen(to))); }
int unlink(const u8 *name) { return judged(host_unlink(name, strlen(name))); }
int isatty(int file) { return host_isatty(file); }

// Linux's struct statx.
typedef struct {
    u32 mask, block_size;
    usize attributes;
    u32 links, user, group;
    u16 mode, spare;
    usize number;
    usize rest[27];
} Stat;
_Static_assert(sizeof(Stat) == 256, "the size on Linux");
enum { FOLDER = 0040000, FILE = 0100000 };

// Stores which file it is and whether it is a folder; the other fields are 0.
int statx(int folder, const u8 *name, int flags, u32 wanted, Stat *at) {
    isize found = host_stat(name, strlen(name));
    if (found < 0) return judged(found);
    *at = (Stat){.mode = found & 1 ? FOLDER : FILE, .number = found >> 1};
    return 0;
}

// (No name is a link, and there are no permissions. Without a path in it, the program keeps the name of a file as it is.)
isize readlink(const u8 *name, u8 *at, usize room) { return judged(-NOT_FOUND); }
u8 *realpath(const u8 *name, u8 *at) { return (u8 *)(usize)(judged(-NOT_FOUND) + 1); }
int fchmod(int file, u32 mode) { return 0; }

int clock_gettime(int clock, isize at[2]) {
    isize now = host_clock(clock);
    at[0] = now / 1000000000;
    at[1] = now % 1000000000;
    return 0;
}

isize rattle_arg(usize index, u8 *at, usize room) {
    isize length = host_arg(index, at, room);
    if (length > 0 && (usize)length > room) __builtin_trap();
    return length;
}

// (There is no environment.)
isize rattle_env(const u8 *name, u8 *at, usize room) { return -1; }
isize rattle_env_at(usize index, u8 *at, usize room) { return -1; }

// (There are no signals.)
isize __sysv_signal(int signal, isize handler) { return 0; }

// When it starts, a program for x86-64-v2 checks that the processor has the features that its code needs. This code needs none,
// so all are there.
static const usize all[8] = {-1, -1, -1, -1, -1, -1, -1, -1};
const usize *__x86_get_cpuid_feature_leaf(u32 leaf) { return all; }

// --- functions that compiled code calls -------------------------------------------------------------------------------

void *memcpy(void *to, const void *from, usize n) { return __builtin_memcpy(to, from, n); }
void *memmove(void *to, const void *from, usize n) { return __builtin_memmove(to, from, n); }
void *memset(void *to, int byte, usize n) { return __builtin_memset(to, byte, n); }

int memcmp(const void *one, const void *other, usize n) {
    const u8 *a = one, *b = other;
    for (usize i = 0; i < n; ++i) {
        if (a[i] != b[i]) return a[i] - b[i];
    }
    return 0;
}

int bcmp(const void *one, const void *other, usize n) { return memcmp(one, other, n); }

// Numbers of 128 bits, in halves: clang compiles their products and shifts to calls of these functions.
typedef unsigned __int128 u128;
typedef union { u128 whole; struct { usize low, high; }; } Halves;

u128 __multi3(u128 x, u128 y) {
    Halves a = {x}, b = {y}, product;
    usize a0 = a.low & 0xffffffff, a1 = a.low >> 32, b0 = b.low & 0xffffffff, b1 = b.low >> 32;
    usize first = a0 * b0, second = a1 * b0 + (first >> 32), third = a0 * b1 + (second & 0xffffffff);
    product.low = third << 32 | (first & 0xffffffff);
    product.high = a1 * b1 + (second >> 32) + (third >> 32) + a.low * b.high + a.high * b.low;
    return product.whole;
}

// Shifts by 0 to 127. (A shift by 1 and then by 63 - n is one by 64 - n that is defined for n = 0.)
u128 __ashlti3(u128 x, int count) {
    Halves a = {x};
    int n = count & 63;
    usize low = a.low << n, high = a.high << n | a.low >> 1 >> (63 - n);
    return (count & 64 ? (Halves){.low = 0, .high = low} : (Halves){.low = low, .high = high}).whole;
}

u128 __lshrti3(u128 x, int count) {
    Halves a = {x};
    int n = count & 63;
    usize high = a.high >> n, low = a.low >> n | a.high << 1 << (63 - n);
    return (count & 64 ? (Halves){.low = high, .high = 0} : (Halves){.low = low, .high = high}).whole;
}
