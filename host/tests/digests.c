/* Writes the digest of each message on standard input: frames of a length in four bytes (high byte first) and then
 * the message; a line of hexadecimal digits for each. Exit status 1 if a frame is cut or memory runs out.
 *
 * Each message has an allocation of its own length, so that valgrind sees a read past its end. */
#include "giangotum.h"

#include <inttypes.h>
#include <stdbool.h>
#include <stdio.h>
#include <stdlib.h>

static bool write_digest_of(const uint8_t *message, size_t length)
{
    uint8_t digest[GT_DIGEST_BYTES];

    if (gt_digest(message, length, digest, sizeof digest).refusal != 0)
        return false;
    for (size_t i = 0; i < sizeof digest; i++)
        printf("%02" PRIx8, digest[i]);
    putchar('\n');
    return true;
}

/* Answers one message of this length from standard input. */
static bool answer(size_t length)
{
    uint8_t *message = malloc(length);
    bool done = (message != NULL || length == 0) && fread(message, 1, length, stdin) == length && write_digest_of(message, length);

    free(message);
    return done;
}

int main(void)
{
    uint8_t prefix[4];
    size_t got;

    while ((got = fread(prefix, 1, sizeof prefix, stdin)) == sizeof prefix) {
        size_t length = 0;
        for (size_t i = 0; i < sizeof prefix; i++)
            length = length << 8 | prefix[i];
        if (!answer(length))
            return EXIT_FAILURE;
    }
    return got == 0 && fflush(stdout) == 0 ? EXIT_SUCCESS : EXIT_FAILURE;
}
