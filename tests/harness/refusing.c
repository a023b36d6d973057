/* Refuses one allocation of a program that it is preloaded to, and counts them: refused is the one whose number stands in
   REFUSING_WHICH, counted from 1, and none where it is 0 or more than the program asks for. A resize is counted as an
   allocation; one that is refused leaves its block as it was.

   The counts are kept in the file of 16 bytes that REFUSING_COUNTS names, so that they stand there however the program
   ends: in its first eight bytes how many allocations were asked for, in the others how many bytes they were to have.

   It stands without headers, for a compiler that comes without any: what it takes of the C library is declared here, and
   the numbers are those of Linux. */
typedef __SIZE_TYPE__ size_t;

enum { READ_WRITE = 2, TO_READ_AND_WRITE = 3, SHARED = 1, NO_MEMORY = 12 };

extern char *getenv(const char *);
extern int open(const char *, int, ...);
extern int close(int);
extern void *mmap(void *, size_t, int, int, int, long);
extern void _exit(int);
extern int *__errno_location(void);
extern void *__libc_malloc(size_t);
extern void *__libc_calloc(size_t, size_t);
extern void *__libc_realloc(void *, size_t);
extern void *__libc_memalign(size_t, size_t);

/* How many allocations were asked for, and how many bytes of them. */
struct counts {
    unsigned long met, bytes;
};

static struct counts *counts;
static unsigned long which;

/* Reads which one is refused, and maps the file of the counts. */
static void begin(void) {
    const char *number = getenv("REFUSING_WHICH"), *name = getenv("REFUSING_COUNTS");
    for (; number && *number; number++)
        which = 10 * which + (unsigned long)(*number - '0');
    int file = name ? open(name, READ_WRITE) : -1;
    counts = mmap((void *)0, sizeof *counts, TO_READ_AND_WRITE, SHARED, file, 0);
    if (counts == (void *)-1)
        _exit(99);
    close(file);
}

/* Whether this allocation, of so many bytes, is the one that is refused. */
static int refuses(size_t size) {
    if (!counts)
        begin();
    counts->bytes += size;
    if (++counts->met != which)
        return 0;
    *__errno_location() = NO_MEMORY;
    return 1;
}

void *malloc(size_t size) { return refuses(size) ? (void *)0 : __libc_malloc(size); }

void *calloc(size_t count, size_t size) { return refuses(count * size) ? (void *)0 : __libc_calloc(count, size); }

void *realloc(void *block, size_t size) { return refuses(size) ? (void *)0 : __libc_realloc(block, size); }

void *memalign(size_t align, size_t size) { return refuses(size) ? (void *)0 : __libc_memalign(align, size); }

void *aligned_alloc(size_t align, size_t size) { return memalign(align, size); }

int posix_memalign(void **block, size_t align, size_t size) {
    void *got = memalign(align, size);
    if (!got)
        return NO_MEMORY;
    *block = got;
    return 0;
}
