/* Preloaded into the program, it fails the one allocation whose number, from 1, FAIL_ALLOC says; 0 fails none. It counts the allocations in
   the first eight bytes of the file that ALLOCATIONS names. Where NO_RANDOM is set, the system has no random bytes. For tests/memory.sh. */
#include <errno.h>
#include <fcntl.h>
#include <stdatomic.h>
#include <stdlib.h>
#include <sys/mman.h>
#include <sys/random.h>
#include <unistd.h>

extern void *__libc_malloc(size_t size);
extern void *__libc_calloc(size_t count, size_t size);
extern void *__libc_realloc(void *old, size_t size);
extern void *__libc_memalign(size_t align, size_t size);

static atomic_ulong before;
static atomic_ulong *made = &before;
static unsigned long failing;

static int fails(void) {
    if (atomic_fetch_add(made, 1) + 1 != failing) return 0;
    errno = ENOMEM;
    return 1;
}

void *malloc(size_t size) { return fails() ? NULL : __libc_malloc(size); }

void *calloc(size_t count, size_t size) { return fails() ? NULL : __libc_calloc(count, size); }

void *realloc(void *old, size_t size) { return fails() ? NULL : __libc_realloc(old, size); }

void *aligned_alloc(size_t align, size_t size) { return fails() ? NULL : __libc_memalign(align, size); }

int posix_memalign(void **out, size_t align, size_t size) {
    void *found = aligned_alloc(align, size);
    if (found == NULL) return ENOMEM;
    *out = found;
    return 0;
}

int getentropy(void *bytes, size_t size) {
    if (getenv("NO_RANDOM") == NULL) return getrandom(bytes, size, 0) == (ssize_t)size ? 0 : -1;
    errno = EIO;
    return -1;
}

__attribute__((constructor)) static void begin(void) {
    const char *name = getenv("ALLOCATIONS"), *number = getenv("FAIL_ALLOC");
    int file = name == NULL ? -1 : open(name, O_RDWR | O_CREAT | O_TRUNC, 0600);
    if (file < 0 || ftruncate(file, sizeof *made) != 0) abort();
    void *shared = mmap(NULL, sizeof *made, PROT_READ | PROT_WRITE, MAP_SHARED, file, 0);
    if (shared == MAP_FAILED) abort();
    close(file);
    made = shared;
    failing = number == NULL ? 0 : strtoul(number, NULL, 10);
}
