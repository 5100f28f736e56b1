/* Answers a command as the program does, without starting it: answer WORD.. < DOCUMENT
 *
 * gcc -I release examples/c/answer.c -L release -lpalvumiose_c -Wl,-rpath,$PWD/release -o answer
 * at the top of the repository. */
#include <palvumiose_c.h>
#include <stdio.h>
#include <stdlib.h>
#include <string.h>
#include <sys/resource.h>

/* The bytes of a stream; never null, also where there are none. */
static uint8_t *bytes_of(FILE *from, size_t *size) {
    uint8_t *bytes = malloc(1 << 16);
    size_t room = 1 << 16, got;
    for (*size = 0; bytes && (got = fread(bytes + *size, 1, room - *size, from)) > 0;) {
        *size += got;
        if (*size == room)
            bytes = realloc(bytes, room *= 2);
    }
    return bytes;
}

/* The words, with a zero byte between two of them; never null. */
static uint8_t *joined(int count, char **words, size_t *size) {
    size_t room = 1;
    for (int i = 0; i < count; i++)
        room += strlen(words[i]) + 1;
    uint8_t *bytes = calloc(1, room);
    *size = 0;
    for (int i = 0; bytes && i < count; i++) {
        memcpy(bytes + *size, words[i], strlen(words[i]));
        *size += strlen(words[i]) + (i + 1 < count);
    }
    return bytes;
}

/* The deepest documents take half a MiB of stack: the main thread's may grow to 8 MiB, where the hard limit allows it. */
static void raise_stack(void) {
    struct rlimit limit;
    const rlim_t wanted = 8 << 20;
    if (getrlimit(RLIMIT_STACK, &limit) || limit.rlim_cur == RLIM_INFINITY || limit.rlim_cur >= wanted)
        return;
    limit.rlim_cur = limit.rlim_max == RLIM_INFINITY || limit.rlim_max > wanted ? wanted : limit.rlim_max;
    setrlimit(RLIMIT_STACK, &limit);
}

int main(int count, char **words) {
    raise_stack();
    size_t command_size, document_size, room = 1 << 16, size;
    uint8_t *command = joined(count - 1, words + 1, &command_size);
    uint8_t *document = bytes_of(stdin, &document_size);
    uint8_t *out = malloc(room);
    if (!command || !document || !out)
        return 10;
    uint8_t status = palvumiose_c_run(command, command_size, document, document_size, out, room, &size);
    if (size > room) { /* once more, with enough room */
        room = size;
        if (!(out = realloc(out, room)))
            return 10;
        status = palvumiose_c_run(command, command_size, document, document_size, out, room, &size);
    }
    if (size <= room)
        fwrite(out, 1, size, stdout);
    free(command), free(document), free(out);
    return status;
}
