/*
 * plain: the plain text of each line of standard input, an escaped text, by the static
 * library: what an editor shows of a title that stands in a feed.
 *
 * Exit status: 0 all lines are escaped texts, 1 one isn't, 2 bad use, a line that is too long,
 * or input or output that fails.
 */
#include "feed.h"

#include <stdio.h>

/* A plain text is never longer than the escaped one, so it fits. */
static uint8_t line[65536];
static uint8_t plain[sizeof line];

/* The bytes of the next line, without its end; -1 where there is none, -2 where it is too long. */
static long next_line(void)
{
    size_t length = 0;
    int byte = getchar();

    if (byte == EOF)
        return -1;
    for (; byte != EOF && byte != '\n'; byte = getchar()) {
        if (length == sizeof line)
            return -2;
        line[length++] = (uint8_t)byte;
    }
    return (long)length;
}

int main(int count, char **words)
{
    uint64_t answer[FEED_ANSWER];
    unsigned long number;
    long length;

    if (count != 1) {
        fprintf(stderr, "usage: %s < FILE\n", words[0]);
        return 2;
    }
    for (number = 1; (length = next_line()) >= 0; number++) {
        feed_unescape(line, (size_t)length, plain, sizeof plain, answer);
        if (answer[FEED_NUMBER] != 0) {
            fprintf(stderr, "plain: line %lu is no escaped text\n", number);
            return 1;
        }
        fwrite(plain, 1, answer[FEED_BYTES], stdout);
        putchar('\n');
    }
    if (length == -2) {
        fprintf(stderr, "plain: line %lu is too long\n", number);
        return 2;
    }
    if (ferror(stdin) || fflush(stdout) != 0) {
        perror("plain");
        return 2;
    }
    return 0;
}
