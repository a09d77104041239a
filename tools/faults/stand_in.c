/* A stand-in for the program, to try the tool by: answers each `;` with a line that counts them, and ends with the statuses of the program.
   MISTAKE is what it does wrong; 0 is nothing. */
typedef __SIZE_TYPE__ size;
typedef long count;

extern void *malloc(size), free(void *);
extern count read(int, void *, size), write(int, const void *, size);
extern int snprintf(char *, size, const char *, ...);
extern void (*signal(int, void (*)(int)))(int);

enum { NOTHING, HALF, SKIP, CRASH, DEAF, SILENT, WRONG_LINE };
enum { LONG = 400, PIECE = 4096, PIPE_SIGNAL = 13 };

static int end(int status, const char *line, size bytes) {
    if (MISTAKE != WRONG_LINE) write(2, line, bytes);
    return status;
}

static int read_failed(void) { return MISTAKE == DEAF ? 0 : end(3, "utd: read failed\n", 17); }
static int write_failed(void) { return end(4, "utd: write failed\n", 18); }
static int no_memory(void) { return end(5, "utd: out of memory\n", 19); }

/* Writes all of them; says whether that failed. */
static int fails(const char *bytes, count left) {
    while (left > 0) {
        count taken = write(1, bytes, left);
        if (taken <= 0) return MISTAKE != SILENT;
        bytes += taken;
        left -= taken;
    }
    return 0;
}

/* A table of one wide row for statement N, as the program may write it. */
static int answer(int number) {
    char *text = malloc(LONG);
    if (MISTAKE == CRASH) text[0] = 0;
    if (!text && MISTAKE == HALF) fails("| N |\n", 6);
    if (!text) return MISTAKE == SKIP && number == 2 ? 0 : no_memory();
    int failed = fails(text, snprintf(text, LONG, "| %300d |\nrows: %d\n", number, 1));
    free(text);
    return failed ? write_failed() : 0;
}

int main(void) {
    static char bytes[PIECE];
    int number = 0;
    signal(PIPE_SIGNAL, (void (*)(int))1);
    for (;;) {
        count taken = read(0, bytes, PIECE);
        if (taken < 0) return read_failed();
        if (taken == 0) return 0;
        for (count at = 0; at < taken; at++) {
            int status = bytes[at] == ';' ? answer(++number) : 0;
            if (status) return status;
        }
    }
}
