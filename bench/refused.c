/* Refuses one call of a program, and counts its calls. bench/refused compiles it as a library that is loaded before the
   program (LD_PRELOAD), and says by the environment what is refused:

     REFUSED_TOLD   the file of the counts, which has room for them
     REFUSED_CALL   memory, bytes, open, read or write; or nothing
     REFUSED_AT     the number of the call that is refused, from 1; of bytes, how many may be held at once
     REFUSED_HOW    a number: the call fails with this error; one: it gives or takes one byte; none: it takes nothing;
                    part: it takes the first half, and the next one finds no space; first, or all: it takes the first
                    byte, or all, and fails

   It is for programs of one thread, over the C library of GNU on Linux. */
#define _GNU_SOURCE
#include <errno.h>
#include <fcntl.h>
#include <malloc.h>
#include <stdarg.h>
#include <stdlib.h>
#include <string.h>
#include <sys/mman.h>
#include <sys/syscall.h>
#include <unistd.h>

extern void *__libc_malloc(size_t size);
extern void *__libc_calloc(size_t count, size_t size);
extern void *__libc_realloc(void *block, size_t size);
extern void *__libc_memalign(size_t alignment, size_t size);
extern void __libc_free(void *block);

enum kind { MEMORY, OPEN, READ, WRITE, KINDS, BYTES = KINDS, NOTHING };
enum how { FAILS, ONE, NONE, PART, FIRST, ALL, HOWS };

/* what bench/refused reads, as numbers of 64 bits */
struct told {
    unsigned long calls[KINDS]; /* how many there were of each */
    unsigned long held, peak;   /* bytes of memory: now, and at most */
    unsigned long refused;      /* how many calls were */
    unsigned long opened;       /* how many files were opened before the first that was */
};

static struct told nowhere, *told = &nowhere;
static enum kind kind = NOTHING;
static enum how how = FAILS;
static unsigned long at;
static int error_number = ENOMEM;

/* What the loader of programs does before this isn't counted. */
__attribute__((constructor)) static void begin(void) {
    static const char *const names[] = {"memory", "open", "read", "write", "bytes"};
    static const char *const hows[HOWS] = {"", "one", "none", "part", "first", "all"};
    const char *file = getenv("REFUSED_TOLD"), *call = getenv("REFUSED_CALL");
    const char *number = getenv("REFUSED_AT"), *way = getenv("REFUSED_HOW");
    int fd = file ? (int)syscall(SYS_openat, AT_FDCWD, file, O_RDWR | O_CLOEXEC, 0) : -1;
    if (fd < 0) {
        return;
    }
    void *room = mmap(NULL, sizeof *told, PROT_READ | PROT_WRITE, MAP_SHARED, fd, 0);
    close(fd);
    if (room == MAP_FAILED) {
        return;
    }
    told = room;
    memset(told, 0, sizeof *told);
    at = number ? strtoul(number, NULL, 10) : 0;
    for (int each = ONE; way && each < HOWS; each++) {
        if (!strcmp(way, hows[each])) {
            how = (enum how)each;
        }
    }
    if (way) {
        error_number = how == FAILS ? (int)strtol(way, NULL, 10) : ENOSPC;
    }
    for (int each = MEMORY; call && each <= BYTES; each++) {
        if (!strcmp(call, names[each])) {
            kind = (enum kind)each;
        }
    }
}

static void refuse(void) {
    if (told->refused++ == 0) {
        told->opened = told->calls[OPEN] - (kind == OPEN);
    }
}

/* counts a call, and tells whether it is refused */
static int is_refused(enum kind of) {
    told->calls[of]++;
    if (kind != of || told->calls[of] != at) {
        return 0;
    }
    refuse();
    return 1;
}

/* Memory: blocks are counted by their sizes as the library has made them. */

static int may_have(size_t size, size_t before) {
    int refused = is_refused(MEMORY);
    if (kind == BYTES && size > before && (size > at || told->held - before > at - size)) {
        refuse();
        refused = 1;
    }
    if (refused) {
        errno = ENOMEM;
    }
    return !refused;
}

static void *had(void *block, size_t before) {
    if (block) {
        told->held += malloc_usable_size(block) - before;
        if (told->held > told->peak) {
            told->peak = told->held;
        }
    }
    return block;
}

void *malloc(size_t size) { return may_have(size, 0) ? had(__libc_malloc(size), 0) : NULL; }

void *calloc(size_t count, size_t size) {
    size_t all = 0;
    int is_too_much = __builtin_mul_overflow(count, size, &all);
    return may_have(is_too_much ? (size_t)-1 : all, 0) ? had(__libc_calloc(count, size), 0) : NULL;
}

void free(void *block) {
    size_t before = block ? malloc_usable_size(block) : 0;
    told->held -= before < told->held ? before : told->held; /* one of the loader's may be given back */
    __libc_free(block);
}

void *realloc(void *block, size_t size) {
    if (block && size == 0) {
        free(block);
        return NULL;
    }
    size_t before = block ? malloc_usable_size(block) : 0;
    return may_have(size, before) ? had(__libc_realloc(block, size), before) : NULL;
}

void *memalign(size_t alignment, size_t size) {
    return may_have(size, 0) ? had(__libc_memalign(alignment, size), 0) : NULL;
}

void *aligned_alloc(size_t alignment, size_t size) { return memalign(alignment, size); }

int posix_memalign(void **block, size_t alignment, size_t size) {
    void *made = memalign(alignment, size);
    if (!made) {
        return ENOMEM;
    }
    *block = made;
    return 0;
}

void *valloc(size_t size) { return memalign((size_t)sysconf(_SC_PAGESIZE), size); }

/* Files and the output: each goes on to the system, unless it is refused. */

static int open_in(int folder, const char *name, int flags, int mode) {
    if (is_refused(OPEN)) {
        errno = error_number;
        return -1;
    }
    return (int)syscall(SYS_openat, folder, name, flags, mode);
}

/* the mode behind the flags, where there is one */
#define MODE_BEHIND(flags, mode)                       \
    int mode = 0;                                      \
    if ((flags) & (O_CREAT | O_TMPFILE)) {             \
        va_list rest;                                  \
        va_start(rest, flags);                         \
        mode = va_arg(rest, int);                      \
        va_end(rest);                                  \
    }

int open(const char *name, int flags, ...) {
    MODE_BEHIND(flags, mode)
    return open_in(AT_FDCWD, name, flags, mode);
}

int open64(const char *name, int flags, ...) {
    MODE_BEHIND(flags, mode)
    return open_in(AT_FDCWD, name, flags, mode);
}

int openat(int folder, const char *name, int flags, ...) {
    MODE_BEHIND(flags, mode)
    return open_in(folder, name, flags, mode);
}

int openat64(int folder, const char *name, int flags, ...) {
    MODE_BEHIND(flags, mode)
    return open_in(folder, name, flags, mode);
}

/* Whether the system's answer to a call of so many bytes is handed on; and how many of them the system gets. */
static int goes_on(enum kind of, size_t *size) {
    if (!is_refused(of)) {
        return 1;
    }
    switch (how) {
    case ONE:
        *size = *size ? 1 : 0;
        return 1;
    case PART:
        *size = (*size + 1) / 2;
        how = FAILS;
        at++;
        return 1;
    case FIRST:
        *size = *size ? 1 : 0;
        return 0;
    case ALL:
        return 0;
    default:
        *size = 0;
        return 0;
    }
}

/* the answer of a call that isn't handed on */
static ssize_t refusal(void) {
    errno = error_number;
    return how == NONE ? 0 : -1;
}

ssize_t read(int fd, void *bytes, size_t size) {
    return goes_on(READ, &size) ? syscall(SYS_read, fd, bytes, size) : refusal();
}

ssize_t write(int fd, const void *bytes, size_t size) {
    if (goes_on(WRITE, &size)) {
        return syscall(SYS_write, fd, bytes, size);
    }
    while (size > 0) {
        ssize_t count = syscall(SYS_write, fd, bytes, size);
        if (count <= 0) {
            break;
        }
        bytes = (const char *)bytes + count;
        size -= (size_t)count;
    }
    return refusal();
}
