/* Preloaded before a program: counts its allocations, its reads of standard input and its writes of standard output, and refuses some of them.

   REFUSE is the kind that is refused: a for allocations, r for reads, w for writes. FROM is the number of the first that is refused, from 1, and UPTO that
   of the last. PIECE is the most bytes that a read or a write moves. COUNTS names a file to which the three counts are written at the end, each on a line.

   For glibc on x86-64. It has no header, since the compiler of the kit brings none. */
typedef __SIZE_TYPE__ size;
typedef long count;

extern void *__libc_malloc(size), *__libc_calloc(size, size), *__libc_realloc(void *, size), *__libc_memalign(size, size);
extern count __read(int, void *, size), __write(int, const void *, size);
extern char *getenv(const char *);
extern count atol(const char *);
extern int snprintf(char *, size, const char *, ...), open(const char *, int, ...), *__errno_location(void);

enum { NO_MEMORY = 12, BROKEN = 5, CREATE = 01101, LONG = 100 };

static struct { char name; count number; } calls[] = {{'a', 0}, {'r', 0}, {'w', 0}};
enum { ALLOCATION, READ, WRITE };
static char refused;
static count from, upto, most;

static count number(const char *name) {
    const char *text = getenv(name);
    return text ? atol(text) : 0;
}

__attribute__((constructor)) static void begin(void) {
    const char *kind = getenv("REFUSE");
    from = number("FROM");
    upto = number("UPTO");
    most = number("PIECE");
    refused = kind ? kind[0] : 0;
}

/* Counts a call of this kind; says whether it is refused. */
static int refuses(int kind, int error) {
    count now = ++calls[kind].number;
    if (calls[kind].name != refused || now < from || now > upto) return 0;
    *__errno_location() = error;
    return 1;
}

static size piece(size wanted) { return most && wanted > (size)most ? (size)most : wanted; }

void *malloc(size bytes) { return refuses(ALLOCATION, NO_MEMORY) ? 0 : __libc_malloc(bytes); }
void *calloc(size items, size bytes) { return refuses(ALLOCATION, NO_MEMORY) ? 0 : __libc_calloc(items, bytes); }
void *realloc(void *old, size bytes) { return refuses(ALLOCATION, NO_MEMORY) ? 0 : __libc_realloc(old, bytes); }
void *aligned_alloc(size align, size bytes) { return refuses(ALLOCATION, NO_MEMORY) ? 0 : __libc_memalign(align, bytes); }
void *memalign(size align, size bytes) { return refuses(ALLOCATION, NO_MEMORY) ? 0 : __libc_memalign(align, bytes); }

int posix_memalign(void **made, size align, size bytes) {
    if (refuses(ALLOCATION, NO_MEMORY)) return NO_MEMORY;
    *made = __libc_memalign(align, bytes);
    return *made ? 0 : NO_MEMORY;
}

count read(int file, void *room, size bytes) {
    if (file != 0) return __read(file, room, bytes);
    return refuses(READ, BROKEN) ? -1 : __read(file, room, piece(bytes));
}

count write(int file, const void *bytes, size number) {
    if (file != 1) return __write(file, bytes, number);
    return refuses(WRITE, BROKEN) ? -1 : __write(file, bytes, piece(number));
}

__attribute__((destructor)) static void end(void) {
    const char *name = getenv("COUNTS");
    if (!name) return;
    int file = open(name, CREATE, 0600);
    char text[LONG];
    __write(file, text, snprintf(text, LONG, "%ld\n%ld\n%ld\n", calls[ALLOCATION].number, calls[READ].number, calls[WRITE].number));
}
