/* Stands before the C library's read and write, and lets those of standard input and standard output fail or move
   little:

       READ_FAILS=3     the third read fails, and no other
       WRITE_FAILS=3    the third write fails, and no other
       ROOM=100         standard output takes 100 bytes: a write takes what still fits, and fails where nothing does
       MOST=1           a call moves at most one byte
       ERROR=4          errno where a call fails (5, EIO, where it isn't named)

   Each call that fails writes a byte to the open file whose number TOLD names. For glibc, by LD_PRELOAD:

       cc -O2 -shared -fPIC -o failing_calls.so failing_calls.c
*/
#define _GNU_SOURCE
#include <dlfcn.h>
#include <errno.h>
#include <stdlib.h>
#include <sys/types.h>
#include <unistd.h>

static ssize_t (*real_read)(int, void *, size_t), (*real_write)(int, const void *, size_t);
static unsigned long read_fails, write_fails, most, room, reads, writes;
static int told = -1, error = EIO, has_room;

static unsigned long number(const char *name) {
    const char *word = getenv(name);
    return word == NULL ? 0 : strtoul(word, NULL, 10);
}

__attribute__((constructor)) static void read_words(void) {
    real_read = (ssize_t (*)(int, void *, size_t))dlsym(RTLD_NEXT, "read");
    real_write = (ssize_t (*)(int, const void *, size_t))dlsym(RTLD_NEXT, "write");
    read_fails = number("READ_FAILS");
    write_fails = number("WRITE_FAILS");
    most = number("MOST");
    room = number("ROOM");
    has_room = getenv("ROOM") != NULL;
    if (getenv("ERROR") != NULL)
        error = (int)number("ERROR");
    if (getenv("TOLD") != NULL)
        told = (int)number("TOLD");
}

static ssize_t fails(void) {
    if (real_write(told, "1", 1) != 1)
        abort();
    errno = error;
    return -1;
}

static size_t piece(size_t count) { return most != 0 && count > most ? most : count; }

ssize_t read(int file, void *buffer, size_t count) {
    if (file != STDIN_FILENO)
        return real_read(file, buffer, count);
    if (++reads == read_fails)
        return fails();
    return real_read(file, buffer, piece(count));
}

ssize_t write(int file, const void *buffer, size_t count) {
    if (file != STDOUT_FILENO)
        return real_write(file, buffer, count);
    if (++writes == write_fails || (has_room && room == 0 && count != 0))
        return fails();
    count = piece(count);
    if (has_room && count > room)
        count = room;
    ssize_t written = real_write(file, buffer, count);
    if (has_room && written > 0)
        room -= (unsigned long)written;
    return written;
}
