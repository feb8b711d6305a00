/* Memory that is allocated and freed. The C library's own functions do it: they have names that nobody replaces, so that the loader
 * may call these while it looks up a function, and nothing goes round in a circle. */
#include <errno.h>
#include <malloc.h>
#include <stdlib.h>
#include <sys/mman.h>

#include "recorder.h"

extern void *__libc_malloc(size_t length);
extern void *__libc_calloc(size_t count, size_t length);
extern void *__libc_realloc(void *block, size_t length);
extern void *__libc_memalign(size_t alignment, size_t length);
extern void __libc_free(void *block);

/* An area is a line for each MiB. Larger ones were most likely touched in part only. */
static const size_t LARGEST_UNMAP = 1 << 30;

static void *made(void *block, uintptr_t code)
{
    if (block && is_recording()) {
        int kept = errno;
        record_block(KIND_ALLOC, (uintptr_t)block, malloc_usable_size(block), code);
        errno = kept;
    }
    return block;
}

/* Before the block is freed: another thread may be given it at once. */
static void unmade(void *block, uintptr_t code)
{
    if (block && is_recording()) {
        int kept = errno;
        record_block(KIND_FREE, (uintptr_t)block, malloc_usable_size(block), code);
        errno = kept;
    }
}

REPLACES void *malloc(size_t length)
{
    return made(__libc_malloc(length), CALLER);
}

REPLACES void *calloc(size_t number, size_t length)
{
    return made(__libc_calloc(number, length), CALLER);
}

REPLACES void free(void *block)
{
    unmade(block, CALLER);
    __libc_free(block);
}

REPLACES void *realloc(void *block, size_t length)
{
    unmade(block, CALLER);
    return made(__libc_realloc(block, length), CALLER);
}

REPLACES void *reallocarray(void *block, size_t number, size_t length)
{
    size_t bytes;
    if (__builtin_mul_overflow(number, length, &bytes)) {
        errno = ENOMEM;
        return NULL;
    }
    unmade(block, CALLER);
    return made(__libc_realloc(block, bytes), CALLER);
}

REPLACES void *memalign(size_t alignment, size_t length)
{
    return made(__libc_memalign(alignment, length), CALLER);
}

REPLACES void *aligned_alloc(size_t alignment, size_t length)
{
    return made(__libc_memalign(alignment, length), CALLER);
}

REPLACES int posix_memalign(void **block, size_t alignment, size_t length)
{
    if (alignment % sizeof(void *) || !alignment || (alignment & (alignment - 1))) {
        return EINVAL;
    }
    int kept = errno;
    void *got = __libc_memalign(alignment, length);
    errno = kept;
    if (!got) {
        return ENOMEM;
    }
    *block = made(got, CALLER);
    record_access(true, (uintptr_t)block, sizeof *block, CALLER);
    return 0;
}

/* ---- C++ ---- */

/* The C++ library's own call of malloc is not recorded: its code is not where the program asked for the memory. It may end by an
 * exception, past this runtime. */
static void end_own_call(int *ignored)
{
    (void)ignored;
    self.is_own_call = false;
    self.inside = 0;
}

#define OPERATOR_NEW(name, parameters, arguments)                                                    \
    extern void *name parameters;                                                                    \
    REPLACES void *name parameters                                                                   \
    {                                                                                                \
        __typeof__(&name) real = REAL(name);                                                         \
        void *block;                                                                                 \
        if (self.inside || !is_recording()) {                                                        \
            return real arguments;                                                                   \
        }                                                                                            \
        {                                                                                            \
            __attribute__((cleanup(end_own_call))) int ends = 0;                                     \
            (void)ends;                                                                              \
            self.inside = (uintptr_t)__builtin_frame_address(0);                                     \
            self.is_own_call = true;                                                                 \
            block = real arguments;                                                                  \
        }                                                                                            \
        return made(block, CALLER);                                                                  \
    }

OPERATOR_NEW(_Znwm, (size_t length), (length))
OPERATOR_NEW(_Znam, (size_t length), (length))
OPERATOR_NEW(_ZnwmRKSt9nothrow_t, (size_t length, const void *nothrow), (length, nothrow))
OPERATOR_NEW(_ZnamRKSt9nothrow_t, (size_t length, const void *nothrow), (length, nothrow))
OPERATOR_NEW(_ZnwmSt11align_val_t, (size_t length, size_t alignment), (length, alignment))
OPERATOR_NEW(_ZnamSt11align_val_t, (size_t length, size_t alignment), (length, alignment))

REPLACES int munmap(void *area, size_t length)
{
    if (length <= LARGEST_UNMAP) {
        record_block(KIND_FREE, (uintptr_t)area, length, CALLER);
    } else {
        count(COUNT_LARGE_UNMAPS);
    }
    return REAL(munmap)(area, length);
}
