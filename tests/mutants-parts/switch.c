// Which wrong bodies are on, in the program that tests/mutants builds: the environment's MUTANT has their numbers, as in 7 or 7,12.
// MUTANT_LOG names a file, to which the number of each switch is added when a run first comes to it.
char *getenv(const char *);
int open(const char *, int, ...), close(int);
long write(int, const void *, unsigned long);

enum { MOST = 1024, APPENDS = 02001, CREATES = 0100 };
static unsigned char on[MOST], is_logged[MOST];
static const char *log_file;

static void read_numbers(const char *text) {
    unsigned number = 0;
    for (; text; ++text) {
        if ('0' <= *text && *text <= '9') {
            number = 10 * number + (unsigned)(*text - '0');
            continue;
        }
        if (number < MOST)
            on[number] = 1;
        if (!*text)
            return;
        number = 0;
    }
}

static void note(unsigned number) {
    char text[8];
    int at = sizeof text, file = open(log_file, APPENDS | CREATES, 0666);
    text[--at] = '\n';
    do
        text[--at] = (char)('0' + number % 10);
    while (number /= 10);
    if (file >= 0) {
        write(file, text + at, sizeof text - (unsigned long)at);
        close(file);
    }
}

_Bool mutant_is_on(unsigned number) {
    static _Bool is_read;
    if (!is_read) {
        is_read = 1;
        read_numbers(getenv("MUTANT"));
        log_file = getenv("MUTANT_LOG");
    }
    if (number >= MOST)
        return 0;
    if (log_file && !is_logged[number]) {
        is_logged[number] = 1;
        note(number);
    }
    return on[number] && number > 0;
}
