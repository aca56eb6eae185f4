/* Buffers to lend to the calls, placed so that a call is stopped when it goes outside one. */
#ifndef LEND_H
#define LEND_H

#include <stdbool.h>
#include <stddef.h>
#include <stdint.h>

/*
 * How buffers are placed: "before" an unreadable page, so that a byte behind the buffer's end stops the program;
 * "behind" one, so that a byte before its beginning does; or "plain", from malloc, which a sanitizer watches.
 */
void lend_as(const char *way);

/* A buffer of this length, whose bytes hold 0xA5. It is never given back. */
void *lend(size_t bytes);

/* A buffer of this length that holds these bytes. It is never given back. */
void *lend_filled(const void *bytes, size_t length);

/* A copy of these bytes to lend for reading: read-only where pages are used. It lasts until the next one is asked for.
 */
const uint8_t *lend_copy(const uint8_t *bytes, size_t length);

/*
 * Whether a wrong function is stopped by an unreadable page: it is run in a process of its own. Where buffers are plain
 * there is no such page, and the answer is true.
 */
bool stopped(void (*wrong)(void));

/* Ends the program with a message where two numbers differ. */
void expect(const char *what, uint64_t found, uint64_t due);

#endif
