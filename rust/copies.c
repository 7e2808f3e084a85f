/*
 * Counts the copies of 4 KB and more that a program makes, where this is loaded before the C library:
 *
 *     gcc -O2 -shared -fPIC rust/copies.c -o copies.so
 *     COPIES=FILE LD_PRELOAD=./copies.so PROGRAM
 *
 * The count is the eight bytes of FILE, which stand there before; it goes on through all programs that are run so.
 *
 * Counted are calls of memcpy and memmove. So the library and both programs copy a board: they have no "rep movs" for one (objdump -d), and no loop that
 * copies more than a tuple at a time. Not counted are tuples that a loop moves one by one, as ours does where one is taken off; what memset clears;
 * what the C library copies in itself, as in realloc; a program without shared libraries; and the copy that a caller in Rust makes of a board that it
 * hands over by value, which is a "rep movs": one at each call of board_apply and board_dump.
 */
#include <fcntl.h>
#include <stddef.h>
#include <stdint.h>
#include <stdlib.h>
#include <sys/mman.h>
#include <unistd.h>

enum { LEAST = 4096 };

static uint64_t early; /* before the file is there */
static uint64_t *copies = &early;

__attribute__((constructor)) static void begin(void)
{
    const char *name = getenv("COPIES");
    int file = name ? open(name, O_RDWR) : -1;
    void *start = file < 0 ? MAP_FAILED : mmap(NULL, sizeof *copies, PROT_READ | PROT_WRITE, MAP_SHARED, file, 0);
    if (start == MAP_FAILED) abort();
    close(file);
    copies = start;
}

/* By one instruction, which no compiler takes for a call of memcpy. */
static void *copy(void *to, const void *from, size_t length)
{
    void *start = to;
    if (length >= LEAST) ++*copies;
    __asm__ volatile("rep movsb" : "+D"(to), "+S"(from), "+c"(length) : : "memory");
    return start;
}

void *memcpy(void *restrict to, const void *restrict from, size_t length)
{
    return copy(to, from, length);
}

void *memmove(void *to, const void *from, size_t length)
{
    if ((uintptr_t)to - (uintptr_t)from >= length) return copy(to, from, length);
    /* It begins inside what is copied: from the last byte on. */
    if (length >= LEAST) ++*copies;
    void *last = (char *)to + length - 1;
    from = (const char *)from + length - 1;
    __asm__ volatile("std; rep movsb; cld" : "+D"(last), "+S"(from), "+c"(length) : : "memory");
    return to;
}
