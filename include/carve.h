/* BBCode forum posts to Carve text: the static library libcarve.a (`rust/library` writes it; x86-64 Linux).
 *
 * How to call: a slice is two arguments, a pointer and the number of its elements (not bytes). The pointer is not null and is aligned for its
 * element, also where the number is 0. No two lent parts overlap. Nothing is allocated, nothing is kept between calls, and a call may run beside
 * others that are lent other memory.
 *
 * What is lent, where n is the length of the text and m that of the output:
 *   text        n bytes, at most 262,144, UTF-8 without bytes 0 and 13; only read
 *   out         m bytes, at most 16,777,216: the converted text
 *   origins     m numbers at least: of each byte of the output 1 + its position in the text, or 0 where a rule wrote it
 *   spans       2 * (n / 3) numbers at least (carve_marks alone): start and end of each mark in the output
 *   records     a struct carve_loss for each loss; their number is that of records, not of numbers
 *   loss_bytes  the fields of the losses, one behind the other
 *   work        n + 3 * m bytes at least, free after the call
 *   numbers     8 * n + 3 * m + 64 numbers at least, free after the call
 *   counts      three numbers: length of the converted text; number of marks or of losses; number of loss bytes (0 where there is no such thing)
 * What the slices hold before the call does not matter.
 *
 * What comes back: CARVE_DONE, or why the call was turned back. Where it is done, out, origins, spans, records and loss_bytes hold the result
 * and zeros behind it. On a refusal they are all zero, and so is counts. All of this is proved (crates/carve/src/lib.rt has the contracts).
 */
#ifndef CARVE_H
#define CARVE_H

#include <stddef.h>
#include <stdint.h>

#ifdef __cplusplus
extern "C" {
#endif

enum carve_result {
    CARVE_DONE = 0,
    CARVE_TEXT_TOO_LONG = 1,     /* the text is longer than 262,144 bytes */
    CARVE_SIZES_WRONG = 2,       /* a lent size is wrong; for carve_day the output is shorter than 10 bytes */
    CARVE_NOT_UTF8 = 3,
    CARVE_ZERO_OR_RETURN = 4,    /* a byte 0 or 13 is in the text */
    CARVE_TOO_DEEP = 5,          /* an opener is met while 64 quotes, or 64 lists, are open */
    CARVE_NO_SPACE = 6,          /* the output is too short: open contents count, so more may be needed than is written */
    CARVE_TOO_MANY_LOSSES = 7,   /* more losses than lent records */
    CARVE_LOSS_BYTES_SHORT = 8,  /* the fields of the losses are longer than the lent loss bytes */
    CARVE_NOT_SECONDS = 9        /* carve_day: not 9 to 11 bytes, all digits */
};

/* A loss: the number of its quote from 1, its line, unnamed 0 or 1, and where its field stands in the loss bytes. */
struct carve_loss {
    uint32_t quote;
    uint32_t line;
    uint32_t unnamed;
    uint32_t start;
    uint32_t length;
};

/* A whole post: marks, then quotes, then lists. Lines in the records are lines of the post.
 * Refusals 1 to 4, then marks 6, quotes 5, 7, 8, 6, lists 5, 6. counts: length, losses, loss bytes. */
uint32_t carve_post(const uint8_t *text, size_t text_len, uint8_t *out, size_t out_len, uint32_t *origins, size_t origins_len,
                    struct carve_loss *records, size_t records_len, uint8_t *loss_bytes, size_t loss_bytes_len,
                    uint8_t *work, size_t work_len, uint32_t *numbers, size_t numbers_len, uint32_t counts[3]);

/* Tags to marks. Refusals 1 to 4, 6. counts: length, marks, 0. */
uint32_t carve_marks(const uint8_t *text, size_t text_len, uint8_t *out, size_t out_len, uint32_t *origins, size_t origins_len,
                     uint32_t *spans, size_t spans_len,
                     uint8_t *work, size_t work_len, uint32_t *numbers, size_t numbers_len, uint32_t counts[3]);

/* Quotes. Refusals 1 to 4, 5, 7, 8, 6. counts: length, losses, loss bytes. */
uint32_t carve_quotes(const uint8_t *text, size_t text_len, uint8_t *out, size_t out_len, uint32_t *origins, size_t origins_len,
                      struct carve_loss *records, size_t records_len, uint8_t *loss_bytes, size_t loss_bytes_len,
                      uint8_t *work, size_t work_len, uint32_t *numbers, size_t numbers_len, uint32_t counts[3]);

/* Lists. Refusals 1 to 4, 5, 6. counts: length, 0, 0. */
uint32_t carve_lists(const uint8_t *text, size_t text_len, uint8_t *out, size_t out_len, uint32_t *origins, size_t origins_len,
                     uint8_t *work, size_t work_len, uint32_t *numbers, size_t numbers_len, uint32_t counts[3]);

/* The caption of an attribution, and its losses, whose quote and line are 0; so are all origins.
 * Refusals 1 to 4, 7, 8, 6. counts: length of the caption, losses, loss bytes. */
uint32_t carve_attribution(const uint8_t *text, size_t text_len, uint8_t *out, size_t out_len, uint32_t *origins, size_t origins_len,
                           struct carve_loss *records, size_t records_len, uint8_t *loss_bytes, size_t loss_bytes_len,
                           uint8_t *work, size_t work_len, uint32_t *numbers, size_t numbers_len, uint32_t counts[3]);

/* The day, as 2026-01-31, of 9 to 11 digits that are seconds since 1970. The output has 10 bytes or more.
 * Refusals 2, 9. counts: 10, 0, 0. */
uint32_t carve_day(const uint8_t *text, size_t text_len, uint8_t *out, size_t out_len, uint32_t counts[3]);

#ifdef __cplusplus
}
#endif

#endif
