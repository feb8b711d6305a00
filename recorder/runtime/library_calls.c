/* Functions of the C library that read or write memory of the program. The library is not compiled to record itself, so what these
 * touch is recorded here: after the call, where only its answer says how much it was. */
#include <errno.h>
#include <stdarg.h>
#include <stdio.h>
#include <string.h>
#include <strings.h>
#include <sys/socket.h>
#include <unistd.h>

#include "recorder.h"

/* The code address is that of the caller of the function in which these stand. */
#define READS(address, length) record(false, address, length, CALLER)
#define WRITES(address, length) record(true, address, length, CALLER)

static inline void record(bool is_write, const void *address, size_t length, uintptr_t code)
{
    if (length && is_recording()) {
        int kept = errno;
        record_access(is_write, (uintptr_t)address, length, code);
        errno = kept;
    }
}

static size_t least(size_t left, size_t right)
{
    return left < right ? left : right;
}

/* ---- bytes ---- */

REPLACES void *memcpy(void *restrict to, const void *restrict from, size_t length)
{
    READS(from, length);
    WRITES(to, length);
    return REAL(memcpy)(to, from, length);
}

REPLACES void *mempcpy(void *restrict to, const void *restrict from, size_t length)
{
    READS(from, length);
    WRITES(to, length);
    return REAL(mempcpy)(to, from, length);
}

REPLACES void *memmove(void *to, const void *from, size_t length)
{
    READS(from, length);
    WRITES(to, length);
    return REAL(memmove)(to, from, length);
}

REPLACES void *memset(void *to, int byte, size_t length)
{
    WRITES(to, length);
    return REAL(memset)(to, byte, length);
}

/* How many bytes are looked at until two differ. */
static size_t compared(const void *left, const void *right, size_t length)
{
    const unsigned char *first = left, *second = right;
    size_t same = 0;
    while (same < length && first[same] == second[same]) {
        same++;
    }
    return same < length ? same + 1 : length;
}

REPLACES int memcmp(const void *left, const void *right, size_t length)
{
    if (is_recording()) {
        size_t looked_at = compared(left, right, length);
        READS(left, looked_at);
        READS(right, looked_at);
    }
    return REAL(memcmp)(left, right, length);
}

REPLACES void *memchr(const void *from, int byte, size_t length)
{
    void *found = REAL(memchr)(from, byte, length);
    READS(from, found ? (size_t)((char *)found - (const char *)from) + 1 : length);
    return found;
}

/* ---- strings ---- */

REPLACES size_t strlen(const char *text)
{
    size_t length = REAL(strlen)(text);
    READS(text, length + 1);
    return length;
}

REPLACES size_t strnlen(const char *text, size_t most)
{
    size_t length = REAL(strnlen)(text, most);
    READS(text, least(length + 1, most));
    return length;
}

/* How many characters of two strings are looked at until they differ or end. */
static size_t compared_text(const char *left, const char *right, size_t most)
{
    size_t same = 0;
    while (same < most && left[same] && left[same] == right[same]) {
        same++;
    }
    return same < most ? same + 1 : most;
}

REPLACES int strcmp(const char *left, const char *right)
{
    if (is_recording()) {
        size_t looked_at = compared_text(left, right, SIZE_MAX);
        READS(left, looked_at);
        READS(right, looked_at);
    }
    return REAL(strcmp)(left, right);
}

REPLACES int strncmp(const char *left, const char *right, size_t most)
{
    if (is_recording()) {
        size_t looked_at = compared_text(left, right, most);
        READS(left, looked_at);
        READS(right, looked_at);
    }
    return REAL(strncmp)(left, right, most);
}

REPLACES char *strcpy(char *restrict to, const char *restrict from)
{
    size_t length = REAL(strlen)(from) + 1;
    READS(from, length);
    WRITES(to, length);
    return REAL(strcpy)(to, from);
}

REPLACES char *stpcpy(char *restrict to, const char *restrict from)
{
    size_t length = REAL(strlen)(from) + 1;
    READS(from, length);
    WRITES(to, length);
    return REAL(stpcpy)(to, from);
}

REPLACES char *strncpy(char *restrict to, const char *restrict from, size_t most)
{
    READS(from, least(REAL(strnlen)(from, most) + 1, most));
    WRITES(to, most);
    return REAL(strncpy)(to, from, most);
}

REPLACES char *strcat(char *restrict to, const char *restrict from)
{
    size_t there = REAL(strlen)(to), more = REAL(strlen)(from) + 1;
    READS(to, there + 1);
    READS(from, more);
    WRITES(to + there, more);
    return REAL(strcat)(to, from);
}

REPLACES char *strchr(const char *text, int character)
{
    char *found = REAL(strchr)(text, character);
    if (is_recording()) {
        READS(text, found ? (size_t)(found - text) + 1 : REAL(strlen)(text) + 1);
    }
    return found;
}

REPLACES char *strrchr(const char *text, int character)
{
    if (is_recording()) {
        READS(text, REAL(strlen)(text) + 1);
    }
    return REAL(strrchr)(text, character);
}

/* ---- files ---- */

/* What was read stands in the first bytes of the buffer. */
static ssize_t after_reading(ssize_t answer, const void *to, uintptr_t code)
{
    if (answer > 0) {
        record(true, to, (size_t)answer, code);
    }
    return answer;
}

REPLACES ssize_t read(int file, void *to, size_t length)
{
    return after_reading(REAL(read)(file, to, length), to, CALLER);
}

REPLACES ssize_t pread(int file, void *to, size_t length, off_t at)
{
    return after_reading(REAL(pread)(file, to, length, at), to, CALLER);
}

REPLACES ssize_t recv(int file, void *to, size_t length, int flags)
{
    return after_reading(REAL(recv)(file, to, length, flags), to, CALLER);
}

REPLACES ssize_t write(int file, const void *from, size_t length)
{
    READS(from, length);
    return REAL(write)(file, from, length);
}

REPLACES ssize_t pwrite(int file, const void *from, size_t length, off_t at)
{
    READS(from, length);
    return REAL(pwrite)(file, from, length, at);
}

REPLACES ssize_t send(int file, const void *from, size_t length, int flags)
{
    READS(from, length);
    return REAL(send)(file, from, length, flags);
}

REPLACES size_t fread(void *restrict to, size_t length, size_t number, FILE *restrict file)
{
    size_t answer = REAL(fread)(to, length, number, file);
    WRITES(to, answer * length);
    return answer;
}

REPLACES size_t fwrite(const void *restrict from, size_t length, size_t number, FILE *restrict file)
{
    READS(from, length * number);
    return REAL(fwrite)(from, length, number, file);
}

REPLACES char *fgets(char *restrict to, int most, FILE *restrict file)
{
    char *answer = REAL(fgets)(to, most, file);
    if (answer && is_recording()) {
        WRITES(to, REAL(strlen)(to) + 1);
    }
    return answer;
}

/* ---- printing into memory ---- */

static int after_printing(int answer, const char *to, size_t most, uintptr_t code)
{
    if (answer >= 0) {
        record(true, to, least((size_t)answer + 1, most), code);
    }
    return answer;
}

REPLACES int vsnprintf(char *restrict to, size_t most, const char *restrict format, va_list arguments)
{
    return after_printing(REAL(vsnprintf)(to, most, format, arguments), to, most, CALLER);
}

REPLACES int snprintf(char *restrict to, size_t most, const char *restrict format, ...)
{
    va_list arguments;
    va_start(arguments, format);
    int answer = REAL(vsnprintf)(to, most, format, arguments);
    va_end(arguments);
    return after_printing(answer, to, most, CALLER);
}

REPLACES int vsprintf(char *restrict to, const char *restrict format, va_list arguments)
{
    return after_printing(REAL(vsprintf)(to, format, arguments), to, SIZE_MAX, CALLER);
}

REPLACES int sprintf(char *restrict to, const char *restrict format, ...)
{
    va_list arguments;
    va_start(arguments, format);
    int answer = REAL(vsprintf)(to, format, arguments);
    va_end(arguments);
    return after_printing(answer, to, SIZE_MAX, CALLER);
}
