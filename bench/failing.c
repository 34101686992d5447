/* Stands before the C library (LD_PRELOAD) and fails one call of the program: bench/failures builds it and says how.
 * Threads may call at once: each call has a number of its own.
 *
 * FAILING_COUNTS  a file of three 64-bit counts, of allocations, reads and writes, which each call raises
 * FAILING_KIND    the kind of call that fails: 0 allocations, 1 reads of descriptor 0, 2 writes to descriptor 1
 * FAILING_CALL    the number of the call that fails, from 1 on; 0 for none
 * FAILING_PIECE   the most bytes that a read or a write moves
 */
#include <errno.h>
#include <fcntl.h>
#include <stdint.h>
#include <stdlib.h>
#include <sys/mman.h>
#include <sys/syscall.h>
#include <unistd.h>

void *__libc_malloc(size_t);
void *__libc_calloc(size_t, size_t);
void *__libc_realloc(void *, size_t);
void *__libc_memalign(size_t, size_t);

enum { ALLOCATION, READ, WRITE };

static uint64_t *counts;
static uint64_t kind, call, piece;

__attribute__((constructor)) static void begin(void) {
    int file = open(getenv("FAILING_COUNTS"), O_RDWR);
    void *at = mmap(0, 3 * sizeof *counts, PROT_READ | PROT_WRITE, MAP_SHARED, file, 0);
    if (file < 0 || at == MAP_FAILED)
        _exit(99);
    kind = strtoull(getenv("FAILING_KIND"), 0, 10);
    call = strtoull(getenv("FAILING_CALL"), 0, 10);
    piece = strtoull(getenv("FAILING_PIECE"), 0, 10);
    counts = at;
}

static int fails(uint64_t of, int error) {
    if (!counts || __atomic_add_fetch(&counts[of], 1, __ATOMIC_RELAXED) != call || kind != of)
        return 0;
    errno = error;
    return 1;
}

void *malloc(size_t size) {
    return fails(ALLOCATION, ENOMEM) ? 0 : __libc_malloc(size);
}

void *calloc(size_t count, size_t size) {
    return fails(ALLOCATION, ENOMEM) ? 0 : __libc_calloc(count, size);
}

void *realloc(void *old, size_t size) {
    return fails(ALLOCATION, ENOMEM) ? 0 : __libc_realloc(old, size);
}

void *aligned_alloc(size_t align, size_t size) {
    return fails(ALLOCATION, ENOMEM) ? 0 : __libc_memalign(align, size);
}

int posix_memalign(void **to, size_t align, size_t size) {
    if (fails(ALLOCATION, ENOMEM) || !(*to = __libc_memalign(align, size)))
        return ENOMEM;
    return 0;
}

ssize_t read(int file, void *to, size_t size) {
    if (file == 0 && fails(READ, EIO))
        return -1;
    return syscall(SYS_read, file, to, file == 0 && size > piece ? piece : size);
}

ssize_t write(int file, const void *from, size_t size) {
    if (file == 1 && fails(WRITE, EIO))
        return -1;
    return syscall(SYS_write, file, from, file == 1 && size > piece ? piece : size);
}

ssize_t __write(int file, const void *from, size_t size) {
    return write(file, from, size);
}
