/* Refuses memory, threads and bytes of a file to the program that LD_PRELOAD loads it into. Calls of malloc, calloc, realloc and
   pthread_create by the program's own code, not by the C library, are counted from 1; those from REFUSE_FIRST to REFUSE_LAST fail.
   The file REFUSE_TALLY, of 16 bytes, has the count of calls, and how many blocks the program holds, however it ends. Each read of
   the file that BAD_FILE names gives at most BAD_STEP bytes, and none from BAD_FROM on: it fails there, as on a disk with a bad
   sector. Where FULL_STEP is set, each write to standard output takes at most so many bytes, and none after FULL_FROM: it fails there,
   as on a full disk, or tells that it took none, where FULL_TAKES_NONE is 1. */
#define _GNU_SOURCE
#include <dlfcn.h>
#include <errno.h>
#include <fcntl.h>
#include <link.h>
#include <pthread.h>
#include <stdatomic.h>
#include <stdint.h>
#include <stdlib.h>
#include <sys/mman.h>
#include <sys/stat.h>
#include <sys/types.h>
#include <unistd.h>

extern void *__libc_malloc(size_t size);
extern void *__libc_calloc(size_t count, size_t size);
extern void *__libc_realloc(void *block, size_t size);
extern void __libc_free(void *block);

struct tally {
    _Atomic uint64_t calls;
    _Atomic uint64_t held;
};

typedef ssize_t reader(int, void *, size_t);
typedef ssize_t writer(int, const void *, size_t);
typedef int starter(pthread_t *, const pthread_attr_t *, void *(*)(void *), void *);

static struct tally nowhere;
static struct tally *tally = &nowhere;
static uint64_t first_refused;
static uint64_t last_refused;
static const char *bad_file;
static uint64_t bad_from;
static uint64_t bad_step;
static uint64_t full_from;
static uint64_t full_step;
static uint64_t full_takes_none;
static _Atomic uint64_t written;
static uintptr_t own_begin;
static uintptr_t own_end;

/* The program itself is the first object, and its parts lie in one piece. */
static int find_own(struct dl_phdr_info *object, size_t size, void *unused) {
    (void)size;
    (void)unused;
    own_begin = UINTPTR_MAX;
    for (int part = 0; part < object->dlpi_phnum; part++) {
        if (object->dlpi_phdr[part].p_type != PT_LOAD) continue;
        uintptr_t begin = object->dlpi_addr + object->dlpi_phdr[part].p_vaddr;
        uintptr_t end = begin + object->dlpi_phdr[part].p_memsz;
        if (begin < own_begin) own_begin = begin;
        if (end > own_end) own_end = end;
    }
    return 1;
}

static uint64_t number_in(const char *name) {
    const char *word = getenv(name);
    return word ? strtoull(word, NULL, 10) : 0;
}

__attribute__((constructor)) static void begin(void) {
    const char *path = getenv("REFUSE_TALLY");
    int file = path ? open(path, O_RDWR) : -1;
    if (file >= 0) {
        void *shared = mmap(NULL, sizeof *tally, PROT_READ | PROT_WRITE, MAP_SHARED, file, 0);
        if (shared != MAP_FAILED) tally = shared;
        close(file);
    }
    first_refused = number_in("REFUSE_FIRST");
    last_refused = number_in("REFUSE_LAST");
    bad_file = getenv("BAD_FILE");
    bad_from = number_in("BAD_FROM");
    bad_step = number_in("BAD_STEP");
    full_from = number_in("FULL_FROM");
    full_step = number_in("FULL_STEP");
    full_takes_none = number_in("FULL_TAKES_NONE");
    dl_iterate_phdr(find_own, NULL);
}

static int is_own(void *caller) {
    return (uintptr_t)caller >= own_begin && (uintptr_t)caller < own_end;
}

static int is_refused(void) {
    uint64_t number = atomic_fetch_add(&tally->calls, 1) + 1;
    if (number < first_refused || number > last_refused) return 0;
    errno = ENOMEM;
    return 1;
}

static void *held(void *block) {
    if (block) atomic_fetch_add(&tally->held, 1);
    return block;
}

void *malloc(size_t size) {
    if (!is_own(__builtin_return_address(0))) return __libc_malloc(size);
    return is_refused() ? NULL : held(__libc_malloc(size));
}

void *calloc(size_t count, size_t size) {
    if (!is_own(__builtin_return_address(0))) return __libc_calloc(count, size);
    return is_refused() ? NULL : held(__libc_calloc(count, size));
}

void *realloc(void *block, size_t size) {
    if (!is_own(__builtin_return_address(0))) return __libc_realloc(block, size);
    if (is_refused()) return NULL;
    void *moved = __libc_realloc(block, size);
    return block ? moved : held(moved);
}

void free(void *block) {
    if (block && is_own(__builtin_return_address(0))) atomic_fetch_sub(&tally->held, 1);
    __libc_free(block);
}

int pthread_create(pthread_t *thread, const pthread_attr_t *how, void *(*body)(void *), void *given) {
    starter *start = (starter *)dlsym(RTLD_NEXT, "pthread_create");
    if (is_own(__builtin_return_address(0)) && is_refused()) return EAGAIN;
    return start(thread, how, body, given);
}

static int is_bad(int file) {
    struct stat named, open_one;
    if (!bad_file || stat(bad_file, &named) || fstat(file, &open_one)) return 0;
    return named.st_dev == open_one.st_dev && named.st_ino == open_one.st_ino;
}

ssize_t read(int file, void *into, size_t size) {
    reader *next = (reader *)dlsym(RTLD_NEXT, "read");
    if (!is_bad(file)) return next(file, into, size);
    uint64_t at = lseek(file, 0, SEEK_CUR);
    if (at >= bad_from) {
        errno = EIO;
        return -1;
    }
    uint64_t most = bad_from - at < bad_step ? bad_from - at : bad_step;
    return next(file, into, size < most ? size : most);
}

ssize_t write(int file, const void *from, size_t size) {
    writer *next = (writer *)dlsym(RTLD_NEXT, "write");
    if (file != STDOUT_FILENO || !full_step) return next(file, from, size);
    uint64_t at = atomic_load(&written);
    if (at >= full_from) {
        errno = ENOSPC;
        return full_takes_none ? 0 : -1;
    }
    uint64_t most = full_from - at < full_step ? full_from - at : full_step;
    ssize_t taken = next(file, from, size < most ? size : most);
    if (taken > 0) atomic_fetch_add(&written, taken);
    return taken;
}
