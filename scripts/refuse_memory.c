/* Loaded before a program (LD_PRELOAD), refuses it some of its requests for memory.
 *
 * A request counts if the call comes from the program's own code. So what the loader and the C
 * library take for themselves, before main and within calls, is neither counted nor refused, and
 * request 1 is the first that the program itself makes. REFUSE_FIRST and REFUSE_LAST are the
 * numbers of the first and the last request that are refused; REFUSE_COUNT names a file of eight
 * bytes that holds how many requests came, at all times and so after a crash too.
 */
#define _GNU_SOURCE
#include <errno.h>
#include <fcntl.h>
#include <link.h>
#include <stdarg.h>
#include <stdint.h>
#include <stdlib.h>
#include <sys/mman.h>
#include <sys/syscall.h>
#include <unistd.h>

/* The C library's own calls, which take no heed of those below. */
void *__libc_malloc(size_t);
void *__libc_calloc(size_t, size_t);
void *__libc_realloc(void *, size_t);
void *__libc_memalign(size_t, size_t);

static uintptr_t code_start, code_end;
static uint64_t first, last, unshared, *count = &unshared;

/* Where the program's code stands. The loader names the program before the libraries. */
static int find_code(struct dl_phdr_info *object, size_t size, void *unused) {
    for (int i = 0; i < object->dlpi_phnum; i++) {
        const ElfW(Phdr) *segment = &object->dlpi_phdr[i];
        if (segment->p_type == PT_LOAD && segment->p_flags & PF_X) {
            code_start = object->dlpi_addr + segment->p_vaddr;
            code_end = code_start + segment->p_memsz;
        }
    }
    return 1;
}

static uint64_t number_in(const char *name) {
    const char *text = getenv(name);
    return text ? strtoull(text, NULL, 10) : 0;
}

__attribute__((constructor)) static void begin(void) {
    const char *path = getenv("REFUSE_COUNT");
    int file = path ? open(path, O_RDWR) : -1;
    void *shared = mmap(NULL, sizeof *count, PROT_READ | PROT_WRITE, MAP_SHARED, file, 0);
    if (shared == MAP_FAILED)
        _exit(127);
    count = shared;
    first = number_in("REFUSE_FIRST");
    last = number_in("REFUSE_LAST");
    dl_iterate_phdr(find_code, NULL);
}

static int is_refused(void *caller) {
    if ((uintptr_t)caller < code_start || (uintptr_t)caller >= code_end)
        return 0;
    ++*count;
    return first <= *count && *count <= last;
}

#define REFUSABLE(refusal) \
    if (is_refused(__builtin_return_address(0))) { \
        errno = ENOMEM; \
        return refusal; \
    }

void *malloc(size_t size) {
    REFUSABLE(NULL)
    return __libc_malloc(size);
}

void *calloc(size_t members, size_t size) {
    REFUSABLE(NULL)
    return __libc_calloc(members, size);
}

void *realloc(void *block, size_t size) {
    REFUSABLE(NULL)
    return __libc_realloc(block, size);
}

void *memalign(size_t alignment, size_t size) {
    REFUSABLE(NULL)
    return __libc_memalign(alignment, size);
}

void *aligned_alloc(size_t alignment, size_t size) {
    REFUSABLE(NULL)
    return __libc_memalign(alignment, size);
}

int posix_memalign(void **block, size_t alignment, size_t size) {
    REFUSABLE(ENOMEM)
    *block = __libc_memalign(alignment, size);
    return *block ? 0 : ENOMEM;
}

void *mmap(void *at, size_t size, int access, int kind, int file, off_t start) {
    REFUSABLE(MAP_FAILED)
    return (void *)syscall(SYS_mmap, at, size, access, kind, file, start);
}

void *mremap(void *at, size_t old, size_t new, int kind, ...) {
    REFUSABLE(MAP_FAILED)
    va_list more;
    va_start(more, kind);
    void *to = kind & MREMAP_FIXED ? va_arg(more, void *) : NULL;
    va_end(more);
    return (void *)syscall(SYS_mremap, at, old, new, kind, to);
}
