// Preloaded by tests/programs/refused-memory: counts the program's requests for memory, and refuses some of them.
//   REFUSE=N            the Nth request, from 1, is refused (0 or left out: none)
//   REFUSE_NEXT=K       the K requests after it too
//   REFUSE_COUNT=FILE   a file of 8 bytes, which holds how many requests there were
// It includes no header, so that the kit's compiler can build it, which comes with none.
typedef unsigned long size;

void *__libc_malloc(size);
void *__libc_calloc(size, size);
void *__libc_realloc(void *, size);
void *__libc_memalign(size, size);
int *__errno_location(void);
char *getenv(const char *);
size strtoul(const char *, char **, int);
int open(const char *, int, ...);
int close(int);
void *mmap(void *, size, int, int, int, long);

enum { NO_MEMORY = 12, READ_AND_WRITE = 2, READABLE_AND_WRITABLE = 3, SHARED = 1 };

static size here;
static size *count = &here;
static size first, last;
static int begun;

static size number(const char *name) {
    const char *text = getenv(name);
    return text ? strtoul(text, 0, 10) : 0;
}

__attribute__((constructor)) static void begin(void) {
    const char *name = getenv("REFUSE_COUNT");
    int file = name ? open(name, READ_AND_WRITE) : -1;
    if (file >= 0) {
        void *page = mmap(0, sizeof here, READABLE_AND_WRITABLE, SHARED, file, 0);
        if (page != (void *)-1)
            count = page;
        close(file);
    }
    first = number("REFUSE");
    last = first + number("REFUSE_NEXT");
    begun = 1;
}

static int refused(void) {
    if (!begun)
        return 0;
    size request = __atomic_add_fetch(count, 1, __ATOMIC_SEQ_CST);
    if (first == 0 || request < first || request > last)
        return 0;
    *__errno_location() = NO_MEMORY;
    return 1;
}

void *malloc(size bytes) { return refused() ? 0 : __libc_malloc(bytes); }
void *calloc(size items, size bytes) { return refused() ? 0 : __libc_calloc(items, bytes); }
void *realloc(void *old, size bytes) { return refused() ? 0 : __libc_realloc(old, bytes); }
void *aligned_alloc(size to, size bytes) { return refused() ? 0 : __libc_memalign(to, bytes); }
void *memalign(size to, size bytes) { return refused() ? 0 : __libc_memalign(to, bytes); }
int posix_memalign(void **place, size to, size bytes) {
    void *got = refused() ? 0 : __libc_memalign(to, bytes);
    if (!got)
        return NO_MEMORY;
    *place = got;
    return 0;
}
