// Stands before the allocator of the C library: the calls with the numbers REFUSE_FIRST to REFUSE_LAST, counted from 1, find no
// memory. Each of them writes one byte to descriptor 9, so that a run in which none was refused can be told.
// The declarations are written out, since a machine that has the kit need not have the C library's headers.
typedef __SIZE_TYPE__ size;
extern void *__libc_malloc(size), *__libc_calloc(size, size), *__libc_realloc(void *, size);
extern char *getenv(const char *);
extern long atol(const char *);
extern long write(int, const void *, size);

static long number(const char *name) {
    const char *text = getenv(name);
    return text ? atol(text) : 0;
}

static int refused(void) {
    static long calls, first, last;
    if (++calls == 1) {
        first = number("REFUSE_FIRST");
        last = number("REFUSE_LAST");
    }
    return first <= calls && calls <= last && write(9, "x", 1) == 1;
}

void *malloc(size bytes) { return refused() ? 0 : __libc_malloc(bytes); }
void *calloc(size count, size bytes) { return refused() ? 0 : __libc_calloc(count, bytes); }
void *realloc(void *old, size bytes) { return refused() ? 0 : __libc_realloc(old, bytes); }
