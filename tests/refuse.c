// Refuses one call of the program that it is loaded into: an allocation, a read, a write, or another call on files. When
// the program ends, it says how many calls of that kind there were.
//
//   cc -O2 -fPIC -shared -nostdlib -fno-builtin -fno-stack-protector -o refuse.so refuse.c
//   LD_PRELOAD=./refuse.so REFUSE_KIND=write REFUSE_AT=3 REFUSE_PREFIX=7 REFUSE_COUNT=9 PROGRAM 9> count
//
// REFUSE_KIND is `allocation`, `read`, `write` or `file`, and its calls are counted from 1. A refused allocation returns
// nothing, and a refused call on files fails with EIO. With REFUSE_PREFIX the write at REFUSE_AT writes only so many
// bytes, and the next one is refused. REFUSE_COUNT is the descriptor that the count is written to, in decimal.
//
// It includes nothing, so that a compiler without the headers of the system builds it too.
typedef unsigned long size_t;
extern void *__libc_malloc(size_t), *__libc_calloc(size_t, size_t), *__libc_realloc(void *, size_t);
extern char *getenv(const char *);
extern long atol(const char *), syscall(long, ...);
extern int *__errno_location(void);
enum { READ = 0, WRITE = 1, OPEN = 2, FSYNC = 74, FDATASYNC = 75, RENAME = 82, FCHMOD = 91, FCHOWN = 93 };
enum { EIO = 5, ENOMEM = 12 };
static char kind;
static long at, prefix = -1, count;

static long number(const char *name, long otherwise) {
    const char *text = getenv(name);
    return text && *text ? atol(text) : otherwise;
}

// Before this the system's own start allocates.
__attribute__((constructor)) static void begin(void) {
    const char *name = getenv("REFUSE_KIND");
    at = number("REFUSE_AT", 0);
    prefix = number("REFUSE_PREFIX", -1);
    kind = name ? *name : 0;
}

__attribute__((destructor)) static void end(void) {
    char digits[24];
    int first = 24;
    long rest = count, descriptor = number("REFUSE_COUNT", -1);
    if (descriptor < 0) return;
    digits[--first] = '\n';
    do digits[--first] = '0' + rest % 10; while (rest /= 10);
    syscall(WRITE, descriptor, digits + first, 24 - first);
}

// Returns whether the next call of a kind is refused.
static int refuses(char of, int error) {
    if (of != kind || ++count != at + (prefix >= 0)) return 0;
    *__errno_location() = error;
    return 1;
}

void *malloc(size_t n) { return refuses('a', ENOMEM) ? 0 : __libc_malloc(n); }
void *calloc(size_t n, size_t size) { return refuses('a', ENOMEM) ? 0 : __libc_calloc(n, size); }
void *realloc(void *p, size_t n) { return refuses('a', ENOMEM) ? 0 : __libc_realloc(p, n); }

long read(int file, void *bytes, size_t n) { return refuses('r', EIO) ? -1 : syscall(READ, file, bytes, n); }
long write(int file, const void *bytes, size_t n) {
    if (refuses('w', EIO)) return -1;
    return syscall(WRITE, file, bytes, kind == 'w' && prefix >= 0 && count == at && prefix < (long)n ? (size_t)prefix : n);
}

int open(const char *path, int flags, int mode) { return refuses('f', EIO) ? -1 : syscall(OPEN, path, flags, mode); }
int fsync(int file) { return refuses('f', EIO) ? -1 : syscall(FSYNC, file); }
int fdatasync(int file) { return refuses('f', EIO) ? -1 : syscall(FDATASYNC, file); }
int rename(const char *from, const char *to) { return refuses('f', EIO) ? -1 : syscall(RENAME, from, to); }
int fchmod(int file, int mode) { return refuses('f', EIO) ? -1 : syscall(FCHMOD, file, mode); }
int fchown(int file, int user, int group) { return refuses('f', EIO) ? -1 : syscall(FCHOWN, file, user, group); }
