/* Preloaded into a program, this makes some of its calls fail: growths with "growth" in FAIL_WHAT, reads with "read", writes with
   "write", each from number FAIL_FROM to number FAIL_TO, counted from 1 where main begins; with "take" these writes take no byte.
   One byte to the file FAIL_TOLD tells each. */
#define _GNU_SOURCE
#include <errno.h>
#include <stdatomic.h>
#include <stdlib.h>
#include <string.h>
#include <sys/syscall.h>
#include <unistd.h>

void *__libc_malloc(size_t), *__libc_calloc(size_t, size_t), *__libc_realloc(void *, size_t), *__libc_memalign(size_t, size_t);

static const char *what = "nothing";
static long from, to, told;
static atomic_long calls;

__attribute__((constructor)) static void begin(void) {
    from = atol(getenv("FAIL_FROM")), to = atol(getenv("FAIL_TO")), told = atol(getenv("FAIL_TOLD"));
    what = getenv("FAIL_WHAT");
}

static int fails(const char *call, int error) {
    if (strcmp(call, what)) return 0;
    long number = atomic_fetch_add(&calls, 1) + 1;
    if (number < from || to < number) return 0;
    syscall(SYS_write, told, ".", 1);
    errno = error;
    return 1;
}

static int refused(void) { return fails("growth", ENOMEM); }

void *malloc(size_t size) { return refused() ? NULL : __libc_malloc(size); }
void *calloc(size_t count, size_t size) { return refused() ? NULL : __libc_calloc(count, size); }
void *realloc(void *old, size_t size) { return refused() ? NULL : __libc_realloc(old, size); }
void *memalign(size_t line, size_t size) { return refused() ? NULL : __libc_memalign(line, size); }
void *aligned_alloc(size_t line, size_t size) { return memalign(line, size); }

int posix_memalign(void **out, size_t line, size_t size) {
    void *got = memalign(line, size);
    if (got) *out = got;
    return got ? 0 : ENOMEM;
}

ssize_t read(int file, void *to_here, size_t size) { return fails("read", EIO) ? -1 : syscall(SYS_read, file, to_here, size); }

ssize_t write(int file, const void *bytes, size_t size) {
    if (fails("take", 0)) return 0;
    return fails("write", EIO) ? -1 : syscall(SYS_write, file, bytes, size);
}
