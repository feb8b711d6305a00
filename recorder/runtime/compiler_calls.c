/* What the compiler puts into a program that is compiled with -fsanitize=thread: a call before each access of memory, and one at the
 * beginning and end of each function. Atomics are in atomics.c. */
#include <string.h>

#include "recorder.h"

#define READ_CALL(name, length)                                              \
    CALLED_BY_COMPILER void __tsan_##name(void *address)                     \
    {                                                                        \
        record_access(false, (uintptr_t)address, length, CALLER);            \
    }
#define WRITE_CALL(name, length)                                             \
    CALLED_BY_COMPILER void __tsan_##name(void *address)                     \
    {                                                                        \
        record_access(true, (uintptr_t)address, length, CALLER);             \
    }
/* An access that does both is a read and then a write. */
#define READ_WRITE_CALL(name, length)                                        \
    CALLED_BY_COMPILER void __tsan_##name(void *address)                     \
    {                                                                        \
        record_access(false, (uintptr_t)address, length, CALLER);            \
        record_access(true, (uintptr_t)address, length, CALLER);             \
    }
#define CALLS(length)                                                        \
    READ_CALL(read##length, length)                                          \
    READ_CALL(unaligned_read##length, length)                                \
    READ_CALL(volatile_read##length, length)                                 \
    READ_CALL(unaligned_volatile_read##length, length)                       \
    WRITE_CALL(write##length, length)                                        \
    WRITE_CALL(unaligned_write##length, length)                              \
    WRITE_CALL(volatile_write##length, length)                               \
    WRITE_CALL(unaligned_volatile_write##length, length)                     \
    READ_WRITE_CALL(read_write##length, length)                              \
    READ_WRITE_CALL(unaligned_read_write##length, length)

CALLS(1)
CALLS(2)
CALLS(4)
CALLS(8)
CALLS(16)

CALLED_BY_COMPILER void __tsan_read_range(void *address, size_t length)
{
    record_access(false, (uintptr_t)address, length, CALLER);
}

CALLED_BY_COMPILER void __tsan_write_range(void *address, size_t length)
{
    record_access(true, (uintptr_t)address, length, CALLER);
}

/* A constructor stores the table of virtual functions that may be there already: such a store changes nothing. */
CALLED_BY_COMPILER void __tsan_vptr_update(void **address, void *value)
{
    if (*address != value) {
        record_access(true, (uintptr_t)address, sizeof *address, CALLER);
    }
}

CALLED_BY_COMPILER void __tsan_vptr_read(void **address)
{
    record_access(false, (uintptr_t)address, sizeof *address, CALLER);
}

CALLED_BY_COMPILER void *__tsan_memcpy(void *to, const void *from, size_t length)
{
    record_access(false, (uintptr_t)from, length, CALLER);
    record_access(true, (uintptr_t)to, length, CALLER);
    return REAL(memcpy)(to, from, length);
}

CALLED_BY_COMPILER void *__tsan_memmove(void *to, const void *from, size_t length)
{
    record_access(false, (uintptr_t)from, length, CALLER);
    record_access(true, (uintptr_t)to, length, CALLER);
    return REAL(memmove)(to, from, length);
}

CALLED_BY_COMPILER void *__tsan_memset(void *to, int byte, size_t length)
{
    record_access(true, (uintptr_t)to, length, CALLER);
    return REAL(memset)(to, byte, length);
}

CALLED_BY_COMPILER void __tsan_func_entry(void *caller)
{
    if (wants_stacks && is_recording()) {
        function_is_entered((uintptr_t)caller, (uintptr_t)__builtin_frame_address(0));
    }
}

/* The frame that ends loses its words: the next function's variables there are others. The frame pointer of the function that ends is
 * the one that this function saved. */
CALLED_BY_COMPILER void __tsan_func_exit(void)
{
    uintptr_t frame = *(uintptr_t *)__builtin_frame_address(0);
    function_is_left();
    if (self.stack_touched >= frame || frame <= self.stack_low || frame > self.stack_high || !begin_event()) {
        return;
    }
    uintptr_t touched = self.stack_touched - self.stack_touched % WORD;
    record_own_block(KIND_FREE, touched, frame - touched, CALLER);
    self.stack_touched = frame;
    end_event();
}

/* Parts of a program may say that what they do is to be left alone. Nothing is left out here. */
CALLED_BY_COMPILER void __tsan_ignore_thread_begin(void) {}
CALLED_BY_COMPILER void __tsan_ignore_thread_end(void) {}
