// A system that refuses: put before a program by LD_PRELOAD, it lets one call of a kind fail, as the environment says.
//
//   REFUSE_WRITE=K    the K-th write to standard output fails
//   REFUSE_MOST=N     a write to standard output, and a read of the named file, takes at most N bytes
//   REFUSE_NAME=NAME  the file whose opens and reads are counted, by the word that it is opened with
//   REFUSE_OPEN=K     its K-th open fails
//   REFUSE_READ=K     its K-th read fails
//   REFUSE_GROWTH=K   the K-th allocation fails; with REFUSE_EVER=1 each later one too
//   REFUSE_THREAD=K   the K-th thread is not made; with REFUSE_EVER=1 no later one either
//   REFUSE_ERROR=E    the error's number, in place of EIO; 0: the call that fails takes nothing, and is no error
//   REFUSE_TOLD=PATH  a file that is made where a call failed
//
// Calls are counted from 1, from the program's start.
#define _GNU_SOURCE
#include <dlfcn.h>
#include <errno.h>
#include <fcntl.h>
#include <pthread.h>
#include <stdarg.h>
#include <stdatomic.h>
#include <stdlib.h>
#include <string.h>
#include <sys/syscall.h>
#include <unistd.h>

// The C library's own allocator, under the names that no shim takes.
extern void *__libc_malloc(size_t);
extern void *__libc_realloc(void *, size_t);
extern void *__libc_calloc(size_t, size_t);
extern void *__libc_memalign(size_t, size_t);

struct kind {
    const char *variable;
    atomic_ulong calls;
};

static struct kind writes = {"REFUSE_WRITE", 0};
static struct kind opens = {"REFUSE_OPEN", 0};
static struct kind reads = {"REFUSE_READ", 0};
static struct kind growths = {"REFUSE_GROWTH", 0};
static struct kind threads = {"REFUSE_THREAD", 0};

// The descriptor of the named file, where it is open.
static atomic_int named = -1;

static unsigned long number(const char *variable, unsigned long otherwise) {
    const char *text = getenv(variable);
    return text == NULL || *text == 0 ? otherwise : strtoul(text, NULL, 10);
}

// By the system itself: nothing here may allocate, or go through a call that is counted.
static void tell(void) {
    const char *path = getenv("REFUSE_TOLD");
    if (path != NULL) {
        long made = syscall(SYS_open, path, O_CREAT | O_WRONLY, 0644);
        if (made >= 0) {
            syscall(SYS_close, made);
        }
    }
}

// Whether this call of the kind is the one to fail.
static int fails(struct kind *kind) {
    unsigned long failing = number(kind->variable, 0);
    if (failing == 0) {
        return 0;
    }
    unsigned long call = atomic_fetch_add(&kind->calls, 1) + 1;
    if (call == failing || (call > failing && number("REFUSE_EVER", 0) == 1)) {
        tell();
        return 1;
    }
    return 0;
}

static ssize_t failure(void) {
    int error = (int)number("REFUSE_ERROR", EIO);
    if (error == 0) {
        return 0;
    }
    errno = error;
    return -1;
}

static size_t at_most(size_t count) {
    size_t most = number("REFUSE_MOST", count);
    return most < count ? most : count;
}

ssize_t write(int descriptor, const void *bytes, size_t count) {
    if (descriptor == STDOUT_FILENO) {
        if (fails(&writes)) {
            return failure();
        }
        count = at_most(count);
    }
    return syscall(SYS_write, descriptor, bytes, count);
}

ssize_t __write(int descriptor, const void *bytes, size_t count) {
    return write(descriptor, bytes, count);
}

static int opened(int folder, const char *path, int flags, mode_t mode) {
    const char *name = getenv("REFUSE_NAME");
    int is_named = name != NULL && strcmp(name, path) == 0;
    if (is_named && fails(&opens)) {
        return (int)failure();
    }
    int descriptor = (int)syscall(SYS_openat, folder, path, flags, mode);
    if (is_named && descriptor >= 0) {
        atomic_store(&named, descriptor);
    }
    return descriptor;
}

static mode_t mode_of(int flags, va_list more) {
    return (flags & (O_CREAT | O_TMPFILE)) != 0 ? va_arg(more, mode_t) : 0;
}

#define OPENS(call)                                    \
    int call(const char *path, int flags, ...) {       \
        va_list more;                                  \
        va_start(more, flags);                         \
        mode_t mode = mode_of(flags, more);            \
        va_end(more);                                  \
        return opened(AT_FDCWD, path, flags, mode);    \
    }

OPENS(open)
OPENS(open64)

#define OPENS_AT(call)                                     \
    int call(int folder, const char *path, int flags, ...) { \
        va_list more;                                      \
        va_start(more, flags);                             \
        mode_t mode = mode_of(flags, more);                \
        va_end(more);                                      \
        return opened(folder, path, flags, mode);          \
    }

OPENS_AT(openat)
OPENS_AT(openat64)

ssize_t read(int descriptor, void *bytes, size_t count) {
    if (descriptor == atomic_load(&named)) {
        if (fails(&reads)) {
            return failure();
        }
        count = at_most(count);
    }
    return syscall(SYS_read, descriptor, bytes, count);
}

int close(int descriptor) {
    int open_one = descriptor;
    atomic_compare_exchange_strong(&named, &open_one, -1);
    return (int)syscall(SYS_close, descriptor);
}

static int no_memory(void) {
    if (fails(&growths)) {
        errno = ENOMEM;
        return 1;
    }
    return 0;
}

void *malloc(size_t size) {
    return no_memory() ? NULL : __libc_malloc(size);
}

void *realloc(void *block, size_t size) {
    return no_memory() ? NULL : __libc_realloc(block, size);
}

void *calloc(size_t count, size_t size) {
    return no_memory() ? NULL : __libc_calloc(count, size);
}

void *memalign(size_t alignment, size_t size) {
    return no_memory() ? NULL : __libc_memalign(alignment, size);
}

void *aligned_alloc(size_t alignment, size_t size) {
    return memalign(alignment, size);
}

int posix_memalign(void **block, size_t alignment, size_t size) {
    void *found = memalign(alignment, size);
    if (found == NULL) {
        return ENOMEM;
    }
    *block = found;
    return 0;
}

int pthread_create(pthread_t *thread, const pthread_attr_t *attributes, void *(*start)(void *), void *argument) {
    int (*create)(pthread_t *, const pthread_attr_t *, void *(*)(void *), void *) = dlsym(RTLD_NEXT, "pthread_create");
    if (fails(&threads)) {
        return EAGAIN;
    }
    return create(thread, attributes, start, argument);
}
