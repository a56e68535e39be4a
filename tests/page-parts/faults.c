// A small program over page/host.c, for host.mjs. Its first argument says what it does.
typedef unsigned long usize;
typedef long isize;
isize rattle_arg(usize index, char *at, usize room);
isize read(int file, char *at, usize room);
isize write(int file, const char *at, usize length);
int open(const char *name, int flags, ...);
int close(int file);
int isatty(int file);
int rattle_errno(void);
struct { usize is_given; char *at; } rattle_alloc(usize n, usize align);

static char room[100000];

// (volatile, so that a call stays a call)
static int deeper(volatile int depth) { return deeper(depth + 1) + depth; }

// A frame of this many bytes a call, in the stack that C has in the memory.
static int wider(volatile int depth) {
    volatile char frame[4096];
    frame[depth & 4095] = (char)depth;
    return wider(depth + 1) + frame[0];
}

// Copies standard input to standard output by reads of ten bytes.
static int copy(void) {
    for (isize got; (got = read(0, room, 10)) > 0;) write(1, room, (usize)got);
    return 0;
}

// Writes until that is refused.
static int flood(void) {
    while (write(1, room, sizeof room) > 0) {}
    return rattle_errno();
}

// Takes memory until that is refused; the status is the count of megabytes.
static int fill(void) {
    int count = 0;
    while (rattle_alloc(1 << 20, 1).is_given) ++count;
    return count;
}

// Opens no file, and closes and reads what is not open.
static int miss(void) {
    int failures = open("none", 0) == -1 && rattle_errno() == 2;
    failures += close(9) == -1 && rattle_errno() == 9;
    failures += read(9, room, 1) == -1 && rattle_errno() == 9;
    failures += write(0, room, 1) == -1 && rattle_errno() == 9;
    return failures + !isatty(1);
}

int main(int count, char **words) {
    write(1, "begun\n", 6);
    switch (rattle_arg(1, room, sizeof room) == 1 ? room[0] : 0) {
        case 'c': return copy();
        case 'd': return deeper(0);
        case 'w': return wider(0);
        case 'f': return flood();
        case 'm': return fill();
        case 'n': return miss();
        case 't': __builtin_trap();
        default: return 7;
    }
}
