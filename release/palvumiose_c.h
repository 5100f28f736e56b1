/* Palvumiose in the process. Made by scripts/c-library from crates/palvumiose_c/src/lib.rt. */
#ifndef PALVUMIOSE_C_H
#define PALVUMIOSE_C_H

#include <stddef.h>
#include <stdint.h>

#ifdef __cplusplus
extern "C" {
#endif

/*
 * Answers a command on a document, as the program does: its status and its text.
 *
 * `command` is the words that would stand behind the program's name, with a zero byte between two of them,
 * as `decide`, or `level`, a zero byte and `2`. `document` is the bytes that the program would read. `out`
 * gets the text, or its prefix where `out` is shorter; behind the text `out` stays as it was. `size` gets the
 * size of the whole text: where it is more than `out` has room for, call again with that much room. The
 * result is the program's status. It is never 8 or 9, since nothing is read or written outside; 10 says that
 * memory ran out, and then there is no text.
 *
 * Nothing is kept between two calls, and nothing is left to free. Calls may run in many threads at a time.
 *
 * What the caller owes, and nothing checks:
 *
 * - No pointer is null, not even where its size is 0, and each leads to as many bytes as its size says,
 *   fewer than 2^63.
 * - `out` and `size` overlap neither each other nor `command` and `document`. During the call no other
 *   thread writes to any of the four, or reads `out` and `size`.
 * - `malloc`, `realloc` and `free`, which the call uses, are those of one allocator, and may be called in
 *   the thread: not in a signal handler, and not in a child that was forked from a process with threads.
 * - The thread has 1 MiB of stack left. A document may be nested so deep that less is not enough, and then
 *   the process ends.
 */
uint8_t palvumiose_c_run(
    const uint8_t *command,
    size_t command_size,
    const uint8_t *document,
    size_t document_size,
    uint8_t *out,
    size_t out_size,
    size_t *size);

#ifdef __cplusplus
}
#endif

#endif
