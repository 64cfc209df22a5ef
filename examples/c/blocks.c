/*
 * blocks FILE: the payload of a stream, with one block held at a time, by the static
 * library.
 *
 * Prints the payload on standard output, up to the first block that is wrong or doesn't
 * follow the one before it. What was printed until then is of one upload, unless two have
 * the same check where they were joined.
 * Exit status: 0 all blocks are right, 1 one isn't or there is none, 2 bad use.
 */
#include "feed.h"

#include <stdio.h>

/* The check that a block holds: the next one starts from it. */
static uint32_t check_of(const uint8_t *block)
{
    const uint8_t *check = block + FEED_PAYLOAD_START + FEED_PAYLOAD;

    return check[0] | (uint32_t)check[1] << 8 | (uint32_t)check[2] << 16 | (uint32_t)check[3] << 24;
}

/* The call judges neither the number nor which kind of the three it is: that is left to
 * whoever knows the stream. */
static int belongs(const uint8_t *block, unsigned number, uint8_t kind)
{
    return (block[0] | (unsigned)block[1] << 8) == number && block[2] == kind;
}

int main(int count, char **words)
{
    uint8_t block[FEED_BLOCK], kind = 0;
    uint32_t start = FEED_CHECK_START;
    unsigned number;
    size_t length;
    FILE *file;

    if (count != 2) {
        fprintf(stderr, "usage: blocks FILE\n");
        return 2;
    }
    file = fopen(words[1], "rb");
    if (file == NULL) {
        perror(words[1]);
        return 2;
    }
    for (number = 0; (length = fread(block, 1, sizeof block, file)) > 0; number++) {
        if (number == 0)
            kind = block[2];
        if (feed_block_payload(block, length, start) == 0 || !belongs(block, number, kind)) {
            fprintf(stderr, "blocks: block %u is wrong, or not of this upload\n", number);
            return 1;
        }
        fwrite(block + FEED_PAYLOAD_START, 1, FEED_PAYLOAD, stdout);
        start = check_of(block);
    }
    if (ferror(file) || fflush(stdout) != 0 || ferror(stdout)) {
        perror("blocks");
        return 2;
    }
    fclose(file);
    if (number == 0)
        fprintf(stderr, "blocks: there is none\n");
    return number == 0;
}
