/*
 * feed.h: the page machine, for C and C++.
 *
 * A grammar, a template set and a value go in, each as a stream of blocks of
 * 512 bytes; a text that the grammar derives comes out, or one numbered refusal.
 * Link the static library of crate `feed_c` (target/staticlib/libfeed.a, which
 * `tools/staticlib` makes). It has no state of its own, takes no memory but
 * what it is lent and its stack, and may be called from several threads at once.
 * A call takes less than 256 KiB of stack, as measured on the deepest sets;
 * the tests run it on a thread of 512 KiB.
 *
 * WHAT IS LENT
 *
 * Every buffer is lent as a pointer and a length. A length may be any number,
 * zero too; the pointer is never null, not even with length zero, and a pointer
 * to uint16_t or uint64_t is aligned as C aligns it. What is lent `const` is
 * only read. A buffer that a call may write to overlaps no other that is lent
 * to the same call. Lengths count bytes, but for the scratch, whose length
 * counts 16-bit numbers.
 *
 * WHAT COMES BACK
 *
 * Every call but feed_block_payload writes all five numbers of `answer`, at the
 * indexes FEED_NUMBER to FEED_BYTES, whatever they held before:
 *
 *   number   0 finished (or accepted, packed, unpacked, unescaped), else the
 *            refusal
 *   kind     the stream that the refusal is about: 1 grammar, 2 templates,
 *            3 value; 0 where it is about none
 *   place    the record or the block that the refusal is about, counted from 0
 *   steps    the nodes visited
 *   bytes    the bytes written into the output
 *
 * THE REFUSALS
 *
 * They are tried in this order, each over grammar, templates and value before
 * the next; of 10 to 12 the first that the walk meets applies.
 *
 *    n   what is wrong                                       kind     place
 *   --   -------------------------------------------------   ------   ------------
 *    0   nothing: the text is finished, the set accepted     0        0
 *    1   a stream's length is zero, above 65,536 or no       1, 2, 3  0
 *        multiple of 512
 *    2   a block has a wrong number, kind, byte 3 or check   1, 2, 3  the block
 *        (which starts from the check of the block before)
 *    3   the records break the layout: a kind or form that   1, 2, 3  0
 *        there isn't, a field that must be zero, a number
 *        out of its row, a wrong size, padding, or what
 *        follows the last thing
 *    4   a template node or a value is over 200 deep, or a   2, 3     that record
 *        template has over 8 parameters, or over 16 loops
 *        and arms of matches stand around a node
 *    5   a class, nonterminal, production, template or       1, 2     the record
 *        type that is named doesn't exist, or a field or              that names
 *        case names no earlier type, an escaped class no
 *        earlier plain class, or a text type an escaped
 *        class
 *    6   a class has least above most, or a range has        1        the class or
 *        lowest above highest or passes U+10FFFF                      the range
 *    7   a typing rule fails (such as: a match has one arm   2        the node; 0
 *        for each case), or a path names a variable or                for template
 *        field that isn't there; or template 0 is missing             0
 *        or hasn't exactly one parameter
 *    8   the value isn't of its declared type (nor is a      3        that record
 *        case that its variant doesn't have)
 *    9   the scratch has fewer than 4,800 16-bit numbers     0        0
 *   10   a node is reached with all fuel used (it isn't      2        the node
 *        counted as a step)
 *   11   a node is reached at depth 201 (it is counted as    2        the node
 *        a step)
 *   12   a keyword, lexeme or separator passes the end of    2        the node; of a
 *        the output                                                   separator the
 *                                                                     sequence
 *
 * feed_pack and feed_unpack answer 0, 1, 2 and 12 of their own, and feed_unescape
 * 0, 8 and 12, as said there, always with kind 0 and steps 0.
 *
 * LEXEMES
 *
 * A literal of the templates (else 7) and a text of the value (else 8) is a lexeme
 * of its class: well-formed UTF-8 of least to most characters, each in a range of
 * the class and among those that XML 1.0 admits:
 *
 *   U+0009, U+000A, U+000D, U+0020-U+D7FF, U+E000-U+FFFD, U+10000-U+10FFFF
 *
 * A range may hold others, such as the vertical tab U+000B, and lets none of them
 * in. A lexeme of an escaped class is the escaped form of a plain one, and it is
 * the plain characters that are judged. Keywords and separators are no lexemes:
 * they may hold any bytes.
 */
#ifndef FEED_H
#define FEED_H

#include <stddef.h>
#include <stdint.h>

#ifdef __cplusplus
extern "C" {
#endif

/* The stream kinds. */
#define FEED_GRAMMAR 1
#define FEED_TEMPLATES 2
#define FEED_VALUE 3

/* The five numbers of an answer. */
#define FEED_NUMBER 0
#define FEED_KIND 1
#define FEED_PLACE 2
#define FEED_STEPS 3
#define FEED_BYTES 4
#define FEED_ANSWER 5

/* Sizes: a block and its payload, which starts at byte 4 and is followed by the
 * block's check, four bytes with the lowest first; the longest stream; and the
 * scratch that an evaluate call needs, in 16-bit numbers. */
#define FEED_BLOCK 512
#define FEED_PAYLOAD 504
#define FEED_PAYLOAD_START 4
#define FEED_STREAM_MOST 65536
#define FEED_SCRATCH 4800

/* The number that the check of block 0 starts from; that of each other block
 * starts from the check of the block before it. */
#define FEED_CHECK_START 2166136261u

/*
 * feed_check: may this grammar and template set be used?
 *
 * Lent:      the grammar's stream and the templates' stream, both only read.
 * Comes back: five zeros if they are accepted; else the first of the refusals
 *            1 to 7, with its kind and place, steps 0 and bytes 0.
 * Afterwards: every lent byte is as it was; only `answer` is written.
 */
void feed_check(const uint8_t *grammar, size_t grammar_length,
                const uint8_t *templates, size_t templates_length,
                uint64_t answer[5]);

/*
 * feed_evaluate: the text of a value.
 *
 * Lent:      the three streams, only read; the fuel, the most nodes that may be
 *            visited; the output; and the scratch, of at least FEED_SCRATCH
 *            16-bit numbers, whatever they hold.
 * Comes back: 0 with the steps taken and the length of the text; or the first of
 *            the refusals 1 to 12. For 1 to 9 steps and bytes are 0. For 10 to
 *            12 they are the steps taken and the bytes written until then.
 * Afterwards, for 1 to 9:
 *            output and scratch keep their bytes.
 * Afterwards, for 0 and 10 to 12:
 *            the first `bytes` bytes of the output are what the walk produced,
 *            the rest of the output is untouched, and all of the lent scratch
 *            is zero, past FEED_SCRATCH too. A keyword, lexeme or separator is
 *            written whole or not at all.
 */
void feed_evaluate(const uint8_t *grammar, size_t grammar_length,
                   const uint8_t *templates, size_t templates_length,
                   const uint8_t *value, size_t value_length,
                   uint32_t fuel,
                   uint8_t *output, size_t output_length,
                   uint16_t *scratch, size_t scratch_length,
                   uint64_t answer[5]);

/*
 * feed_pack: records into blocks.
 *
 * Lent:      the kind that the blocks are to have, 1 to 3; the payload, 8 to
 *            64,512 bytes and a multiple of 8, only read; and the output.
 * Comes back: 0 with the bytes of the blocks: 512 for each 504 bytes of payload
 *            begun. Else, with all other fields 0: 1 for the payload's length,
 *            then 2 for a kind outside 1 to 3, then 12 if the blocks don't fit
 *            the output.
 * Afterwards: refused, nothing is written; else only the bytes counted are. The
 *            last block is filled with zeros after the payload, and each check
 *            starts from the one before it. What follows in the output is as it
 *            was.
 */
void feed_pack(uint8_t kind,
               const uint8_t *payload, size_t payload_length,
               uint8_t *output, size_t output_length,
               uint64_t answer[5]);

/*
 * feed_unpack: blocks into records.
 *
 * Lent:      the kind to expect, 1 to 3; the stream, only read; and the output.
 * Comes back: 0 with the bytes of the payload: 504 for each block, zero fill
 *            included. Else, with all other fields 0 but the place of a 2: 1 for
 *            the stream's length, then 2 for a wrong block (place: the block; 0
 *            for a kind outside 1 to 3), then 12 if the payload doesn't fit the
 *            output.
 * Afterwards: refused, nothing is written; else only the bytes counted are. What
 *            follows in the output is as it was.
 */
void feed_unpack(uint8_t kind,
                 const uint8_t *stream, size_t stream_length,
                 uint8_t *output, size_t output_length,
                 uint64_t answer[5]);

/*
 * feed_unescape: an escaped text into the plain one, for an editor.
 *
 * Lent:      the text, any bytes of any length, only read; and the output.
 * Comes back: 0 with the bytes of the plain text, in which &amp; &lt; &gt; &quot;
 *            and &apos; are the characters that they stand for. Else, with all
 *            other fields 0: 8 if escaping makes the text of no well-formed
 *            UTF-8 (it has a bare one of the five characters, another reference,
 *            a numeric one too, or is no UTF-8), then 12 if the plain text
 *            doesn't fit the output. The plain text is never longer than the
 *            escaped one. No class is looked at, nor what XML 1.0 admits.
 * Afterwards: refused, nothing is written; else only the bytes counted are. What
 *            follows in the output is as it was.
 */
void feed_unescape(const uint8_t *text, size_t text_length,
                   uint8_t *output, size_t output_length,
                   uint64_t answer[5]);

/*
 * feed_block_payload: the payload of a single block, where it lies.
 *
 * Lent:      the block, only read; and the number that its check starts from,
 *            any: FEED_CHECK_START for block 0 of a stream, for each other block
 *            the check of the block before it.
 * Comes back: FEED_PAYLOAD, and the payload is the 504 bytes from
 *            block + FEED_PAYLOAD_START on; or 0, an empty part, for a length
 *            other than 512, a kind outside 1 to 3, a byte 3 that isn't zero or
 *            a wrong check. The block's number (bytes 0 and 1) isn't judged, and
 *            each kind of the three (byte 2) is taken.
 * Afterwards: every lent byte is as it was.
 *
 * A stream, block by block, up to the first block that is wrong or doesn't follow
 * the one before it (examples/c/blocks.c is a whole program):
 *
 *     uint32_t start = FEED_CHECK_START;
 *     for (; length >= FEED_BLOCK; block += FEED_BLOCK, length -= FEED_BLOCK) {
 *         if (feed_block_payload(block, FEED_BLOCK, start) == 0)
 *             break;
 *         use(block + FEED_PAYLOAD_START, FEED_PAYLOAD);
 *         const uint8_t *check = block + FEED_PAYLOAD_START + FEED_PAYLOAD;
 *         start = check[0] | (uint32_t)check[1] << 8 | (uint32_t)check[2] << 16
 *                 | (uint32_t)check[3] << 24;
 *     }
 */
size_t feed_block_payload(const uint8_t *block, size_t block_length, uint32_t start);

#ifdef __cplusplus
}
#endif

#endif /* FEED_H */
