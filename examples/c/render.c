/*
 * render DIR: the text of DIR's three streams, by the static library.
 *
 * Prints the text on standard output, or a refusal on standard error.
 * Exit status: 0 finished, 1 refused, 2 bad use.
 */
#include "feed.h"

#include <errno.h>
#include <stdio.h>
#include <stdlib.h>

/* One byte more than the longest stream, so that a longer file meets refusal 1. */
struct stream {
    uint8_t bytes[FEED_STREAM_MOST + 1];
    size_t length;
};

static const char *const kinds[] = {"no stream", "the grammar", "the templates", "the value"};

/* All that is lent: the library takes no memory of its own. */
static struct stream grammar, templates, value;
static uint8_t output[65536];
static uint16_t scratch[FEED_SCRATCH];

static void load(struct stream *stream, const char *folder, const char *name)
{
    char path[4096];
    int length = snprintf(path, sizeof path, "%s/%s", folder, name);
    FILE *file = NULL;

    errno = ENAMETOOLONG;
    if (length > 0 && (size_t)length < sizeof path)
        file = fopen(path, "rb");
    if (file != NULL)
        stream->length = fread(stream->bytes, 1, sizeof stream->bytes, file);
    if (file == NULL || ferror(file)) {
        perror(path);
        exit(2);
    }
    fclose(file);
}

int main(int count, char **words)
{
    uint64_t answer[FEED_ANSWER];

    if (count != 2) {
        fprintf(stderr, "usage: render DIR\n");
        return 2;
    }
    load(&grammar, words[1], "grammar.blk");
    load(&templates, words[1], "template.blk");
    load(&value, words[1], "value.blk");

    feed_evaluate(grammar.bytes, grammar.length, templates.bytes, templates.length,
                  value.bytes, value.length, 1000000, output, sizeof output,
                  scratch, FEED_SCRATCH, answer);
    if (answer[FEED_NUMBER] != 0) {
        fprintf(stderr, "render: refusal %lu in %s, place %lu\n",
                (unsigned long)answer[FEED_NUMBER], kinds[answer[FEED_KIND] & 3],
                (unsigned long)answer[FEED_PLACE]);
        return 1;
    }
    if (fwrite(output, 1, answer[FEED_BYTES], stdout) != answer[FEED_BYTES] || fflush(stdout) != 0) {
        perror("render");
        return 2;
    }
    return 0;
}
