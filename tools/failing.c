// Put in front of the C library by LD_PRELOAD, this makes calls of a program fail, by numbers from the environment:
// the growths from REFUSED_FIRST to REFUSED_LAST get no memory, the read FAILED_READ and the write FAILED_WRITE fail, and
// where there is a number LONGEST no read or write is of more bytes. At each write that the program makes and at its end a
// line on standard error tells how many growths, reads and writes there were.
typedef __SIZE_TYPE__ size_t;

extern void *__libc_malloc(size_t);
extern void *__libc_realloc(void *, size_t);
extern long __read(int, void *, size_t);
extern long __write(int, const void *, size_t);
extern int *__errno_location(void);
extern char *getenv(const char *);
extern long atol(const char *);
extern int sprintf(char *, const char *, ...);

static long growths, reads, writes;
static long refused_first, refused_last, failed_read, failed_write, longest;

static long number(const char *name) {
    const char *text = getenv(name);
    return text ? atol(text) : 0;
}

__attribute__((constructor)) static void take_numbers(void) {
    refused_first = number("REFUSED_FIRST");
    refused_last = number("REFUSED_LAST");
    failed_read = number("FAILED_READ");
    failed_write = number("FAILED_WRITE");
    longest = number("LONGEST");
}

__attribute__((destructor)) static void tell(void) {
    char line[80];
    __write(2, line, sprintf(line, "%ld %ld %ld\n", growths, reads, writes));
}

static int is_refused(void) {
    growths++;
    return refused_first <= growths && growths <= refused_last;
}

void *malloc(size_t size) { return is_refused() ? 0 : __libc_malloc(size); }

void *realloc(void *old, size_t size) { return is_refused() ? 0 : __libc_realloc(old, size); }

static size_t at_most(size_t size) { return longest && (size_t)longest < size ? (size_t)longest : size; }

// An error of input or output, EIO.
static long fails(void) {
    *__errno_location() = 5;
    return -1;
}

long read(int file, void *bytes, size_t size) {
    return ++reads == failed_read ? fails() : __read(file, bytes, at_most(size));
}

long write(int file, const void *bytes, size_t size) {
    tell();
    return ++writes == failed_write ? fails() : __write(file, bytes, at_most(size));
}
