/* Buffers between unreadable pages (POSIX). */
#ifndef _DEFAULT_SOURCE
#define _DEFAULT_SOURCE 1
#endif
#include "lend.h"

#include <inttypes.h>
#include <stdio.h>
#include <stdlib.h>
#include <string.h>
#include <signal.h>
#include <sys/mman.h>
#include <sys/types.h>
#include <sys/wait.h>
#include <unistd.h>

enum { COPY = 65536 };

static enum { PLAIN, BEFORE, BEHIND } placed = PLAIN;

static void stop(const char *why)
{
    fprintf(stderr, "lend: %s\n", why);
    exit(EXIT_FAILURE);
}

void lend_as(const char *way)
{
    if (strcmp(way, "plain") == 0) {
        placed = PLAIN;
    } else if (strcmp(way, "before") == 0) {
        placed = BEFORE;
    } else if (strcmp(way, "behind") == 0) {
        placed = BEHIND;
    } else {
        stop("the ways are plain, before and behind");
    }
}

/* Whole pages, as many as these bytes fill, between two that cannot be read. */
static uint8_t *between_walls(size_t bytes)
{
    size_t page = (size_t)sysconf(_SC_PAGESIZE);
    uint8_t *room = (uint8_t *)mmap(NULL, bytes + 2 * page, PROT_NONE, MAP_PRIVATE | MAP_ANONYMOUS, -1, 0);
    if (room == (uint8_t *)MAP_FAILED || mprotect(room + page, bytes, PROT_READ | PROT_WRITE) != 0) {
        stop("no pages");
    }
    return room + page;
}

void *lend(size_t bytes)
{
    uint8_t *buffer;
    if (placed == PLAIN) {
        buffer = (uint8_t *)malloc(bytes == 0 ? 1 : bytes);
        if (buffer == NULL) {
            stop("no memory");
        }
    } else {
        size_t page = (size_t)sysconf(_SC_PAGESIZE);
        size_t whole = (bytes + page - 1) / page * page;
        buffer = between_walls(whole);
        if (placed == BEFORE) {
            buffer += whole - bytes;
        }
    }
    memset(buffer, 0xA5, bytes);
    return buffer;
}

void *lend_filled(const void *bytes, size_t length)
{
    void *buffer = lend(length);
    memcpy(buffer, bytes, length);
    return buffer;
}

const uint8_t *lend_copy(const uint8_t *bytes, size_t length)
{
    static uint8_t *room;
    uint8_t *copy;
    if (length > COPY) {
        stop("a copy is too long");
    }
    if (placed == PLAIN) {
        free(room);
        room = (uint8_t *)malloc(length == 0 ? 1 : length);
        if (room == NULL) {
            stop("no memory");
        }
        memcpy(room, bytes, length);
        return room;
    }
    if (room == NULL) {
        room = between_walls(COPY);
    }
    copy = placed == BEFORE ? room + COPY - length : room;
    if (mprotect(room, COPY, PROT_READ | PROT_WRITE) != 0) {
        stop("no pages");
    }
    memcpy(copy, bytes, length);
    if (mprotect(room, COPY, PROT_READ) != 0) {
        stop("no pages");
    }
    return copy;
}

bool stopped(void (*wrong)(void))
{
    int status = 0;
    pid_t child;
    if (placed == PLAIN) {
        return true;
    }
    fflush(stdout);
    child = fork();
    if (child < 0) {
        stop("no process");
    }
    if (child == 0) {
        wrong();
        _exit(EXIT_SUCCESS);
    }
    return waitpid(child, &status, 0) == child && WIFSIGNALED(status) && WTERMSIG(status) == SIGSEGV;
}

void expect(const char *what, uint64_t found, uint64_t due)
{
    if (found != due) {
        printf("surprise: %s is %" PRIu64 ", not %" PRIu64 "\n", what, found, due);
        fflush(stdout);
        exit(EXIT_FAILURE);
    }
}
