/*
 * kiosk.h: colour pictures, tints, stickers, spool files and a printer's turns for photo kiosks, from the proved
 * library.
 *
 * Link with libkiosk.a, which `tools/archive` writes to target/staticlib/. x86-64 Linux only.
 * Rules are cited by their numbers in docs/RULES.md.
 *
 * Answers. A function that returns int64_t gives a count of 0 or more, or minus the number of a
 * refusal (enum kiosk_refusal). A refused call changes no destination. kiosk_round_trip and
 * kiosk_both_runs make several conversions, each accepted or refused by itself: a refused one
 * leaves its own destination as it was, and a later one may still be accepted, and then writes.
 *
 * Buffers are a pointer and a length: bytes for uint8_t, numbers for int32_t and uint32_t, records for
 * struct kiosk_record. Any length may be given: a destination that is longer or shorter than needed is
 * refused with 11. A buffer of length 0 is neither read nor written.
 *
 * `place` and `places` are written by the refusals that have a place, and otherwise keep what they
 * held. `clipped` is written where a conversion to sRGB is accepted, `four` and `sums` where stickers
 * are, and `start` where a row's frame is found; otherwise they keep what they held.
 *
 * What no function can check, and each relies on:
 * - No pointer is null, not even that of an empty buffer. Each points to as much as its length or
 *   its type says, aligned as C asks.
 * - What a call writes overlaps nothing else that it is given. It writes destinations, and what
 *   place, clipped, again, again_place, answers, places, pixel, four, sums, shop, table, next, record,
 *   start and text point to.
 * - A buffer is shorter than 2^63 bytes.
 * - During a call nobody else writes what the call is given, or reads what it writes.
 *
 * Pixels are three samples, row by row (rules 3.1, 3.2). Samples of 8 bits are single bytes; all
 * others take two, the low one first. Depths offered are 10, 12 and 16, and 10 and 12 for codes from
 * linear light; any other may be asked for and is refused with 9.
 */
#ifndef KIOSK_H
#define KIOSK_H

#include <stddef.h>
#include <stdint.h>

#ifdef __cplusplus
extern "C" {
#endif

/* Why an operation refuses (rules, section 8). The functions return minus this number. */
enum kiosk_refusal {
    KIOSK_TOO_SHORT = 1,                 /* a spool shorter than its header */
    KIOSK_WRONG_FILE_LENGTH = 2,         /* the length in the header is not the file's */
    KIOSK_TOO_MANY_FRAMES = 3,           /* more than KIOSK_FRAME_LIMIT frames */
    KIOSK_TABLE_OUTSIDE = 4,             /* the record table is not inside the file behind the header */
    KIOSK_NO_SUCH_FRAME = 5,             /* no frame has this number */
    KIOSK_UNKNOWN_KIND = 6,              /* kind and bits are no pair that a picture has */
    KIOSK_WRONG_SIZE = 7,                /* a width or height of 0 or above 8,192 */
    KIOSK_PIXELS_OUTSIDE = 8,            /* the pixels are not inside the file behind the header */
    KIOSK_DEPTH_NOT_OFFERED = 9,         /* a depth that is not offered */
    KIOSK_NOT_WHOLE_SAMPLES = 10,        /* the source is not whole samples: an odd number of bytes */
    KIOSK_WRONG_DESTINATION_LENGTH = 11, /* the destination has not exactly the length needed */
    KIOSK_SAMPLE_TOO_GREAT = 12,         /* a sample above the greatest of its depth; place: its byte offset, and
                                            for a code of the 16 tints see kiosk_stickers */
    KIOSK_CHROMA_ZERO = 13,              /* a chroma of code 0; place: its byte offset */
    KIOSK_TOTAL_TOO_LONG = 14,           /* a spool that would be longer than 4,294,967,295 bytes */
    KIOSK_INPUT_TOO_LONG = 15,           /* a file too long for the listing: only its text says so */
    KIOSK_NOT_WHOLE_PIXELS = 16,         /* the source is whole samples, and not whole pixels */
    KIOSK_NOT_FINITE = 17,               /* a tint's channel that is infinite or not a number; place: its number, 0 to 2 */
    KIOSK_NO_BUDGET = 18,                /* a budget of 0: no choice may be looked at */
    KIOSK_TOO_MANY_PIXELS = 19,          /* a picture of more than 65,536 pixels for stickers */
    KIOSK_WRONG_RECORD_SIZE = 20,        /* a strided spool whose header has another number than 20 for the size of
                                            its records */
    KIOSK_WRONG_STRIDE = 21,             /* a stride below a row's own bytes; for kiosk_relayout also gaps between
                                            rows, which a plain spool cannot have */
    KIOSK_WRONG_ARRIVAL = 22             /* an arrival at the printer that breaks a limit, or is one too many;
                                            place: its number from 0 */
};

/* What a frame's pixels are (rule 7.3). */
enum kiosk_kind {
    KIOSK_SRGB = 1,        /* 8 bits */
    KIOSK_ESRGB = 2,       /* 10, 12 or 16 bits */
    KIOSK_LUMA_CHROMA = 3, /* 10, 12 or 16 bits: luma, blue chroma, red chroma */
    KIOSK_ESYCC = 4,       /* 10, 12 or 16 bits: the standard's e-sYCC, in the same order */
    KIOSK_SYCC = 5         /* 8 bits: the standard's sRGB YCC, in the same order */
};

/* A frame's record, with the 16 bytes that it has in a plain spool: the machine is little-endian. */
struct kiosk_record {
    uint32_t offset; /* of the frame's pixels, from the start of the file */
    uint16_t width;
    uint16_t height;
    uint8_t kind;
    uint8_t bits;
    uint16_t copies;
    uint32_t order;
};

/* A frame's record with its stride: the 20 bytes that it has in a strided spool. */
struct kiosk_strided_record {
    struct kiosk_record record; /* as kiosk_find gives it and kiosk_lay_out takes it */
    uint32_t stride;            /* the bytes from the start of a row to the start of the next */
};

/* ---- Pictures (rule 4). Conversions give the pixel count, or refuse with 9, 10, 16, 11, 12 or 13, in the
 * order of rule 4.2. Of 8-bit sRGB and sYCC any length is whole samples: 16, and never 10; nor do their
 * samples get 12. Only luma and chroma get 13. No conversion knows of gaps: a frame that has some between its
 * rows is converted row by row (kiosk_row). ---- */

/* Converts 8-bit sRGB to e-sRGB of the given depth. */
int64_t kiosk_from_srgb(uint32_t depth, const uint8_t *src, size_t src_len,
                        uint8_t *dst, size_t dst_len, size_t *place);

/* Converts e-sRGB of the given depth to 8-bit sRGB, clipping what sRGB does not hold. *clipped gets the number
 * of pixels with a channel whose code is below black's or above white's (rules 1.9, 4.6), whatever rounding makes
 * of it: at 10 bits, below 384 or above 894. */
int64_t kiosk_to_srgb(uint32_t depth, const uint8_t *src, size_t src_len,
                      uint8_t *dst, size_t dst_len, size_t *place, size_t *clipped);

/* Converts e-sRGB of depth `from` to depth `to`: up by a power of two, down to the nearest code with
 * ties upward, clipped to the greatest. Equal depths copy. */
int64_t kiosk_change_depth(uint32_t from, uint32_t to, const uint8_t *src, size_t src_len,
                           uint8_t *dst, size_t dst_len, size_t *place);

/* Converts e-sRGB to luma and chroma of the same depth. */
int64_t kiosk_to_luma_chroma(uint32_t depth, const uint8_t *src, size_t src_len,
                             uint8_t *dst, size_t dst_len, size_t *place);

/* Converts luma and chroma back to e-sRGB of the same depth. Chroma of code 0 is refused with 13. */
int64_t kiosk_from_luma_chroma(uint32_t depth, const uint8_t *src, size_t src_len,
                               uint8_t *dst, size_t dst_len, size_t *place);

/* Converts e-sRGB to e-sYCC of the same depth, clipping what it does not hold. */
int64_t kiosk_to_esycc(uint32_t depth, const uint8_t *src, size_t src_len,
                       uint8_t *dst, size_t dst_len, size_t *place);

/* Converts e-sYCC to e-sRGB of the same depth, clipping what it does not hold. Any chroma is accepted, 0 too. */
int64_t kiosk_from_esycc(uint32_t depth, const uint8_t *src, size_t src_len,
                         uint8_t *dst, size_t dst_len, size_t *place);

/* Converts e-sRGB of the given depth to sYCC, which has 8 bits, clipping what it does not hold. */
int64_t kiosk_to_sycc(uint32_t depth, const uint8_t *src, size_t src_len,
                      uint8_t *dst, size_t dst_len, size_t *place);

/* Converts sYCC, which has 8 bits, to e-sRGB of the given depth, clipping what it does not hold. Any bytes are
 * accepted. A grey does not come back from sYCC as a grey: the standard adds 128 to chroma, and takes 127.5 off. */
int64_t kiosk_from_sycc(uint32_t depth, const uint8_t *src, size_t src_len,
                        uint8_t *dst, size_t dst_len, size_t *place);

/* Two conversions (rule 5.1): e-sRGB to luma and chroma in `ycc`, and `ycc` back to e-sRGB in `back`.
 * Returns the first one's answer; *again gets the second's, and each has a place of its own. Where
 * the first is refused, the second converts what `ycc` held before. */
int64_t kiosk_round_trip(uint32_t depth, const uint8_t *codes, size_t codes_len,
                         uint8_t *ycc, size_t ycc_len, uint8_t *back, size_t back_len,
                         size_t *place, int64_t *again, size_t *again_place);

/* Five conversions (rule 5.2), in this order: the sRGB `picture` to e-sRGB in `codes`; `codes` to
 * luma and chroma in `ycc`; `ycc` back to e-sRGB in `back`; `codes` to 8-bit sRGB in `direct`; and
 * `back` to 8-bit sRGB in `round`. answers[k] gets the answer of the k-th, from 0, and places[k] its
 * place. clipped[0] gets the clipped pixels of `direct`, and clipped[1] those of `round`, as kiosk_to_srgb
 * counts them; each keeps what it held where its conversion is refused. All five are made: where one is
 * refused, a later one that reads its destination converts what was there before. */
void kiosk_both_runs(uint32_t depth, const uint8_t *picture, size_t picture_len,
                     uint8_t *codes, size_t codes_len, uint8_t *ycc, size_t ycc_len,
                     uint8_t *back, size_t back_len, uint8_t *direct, size_t direct_len,
                     uint8_t *round, size_t round_len, int64_t answers[5], size_t places[5],
                     size_t clipped[2]);

/* ---- Linear light (rule 6), in signed millionths of reference white. All give the pixel count. ---- */

/* Converts e-sRGB codes of 10, 12 or 16 bits to light: dst_len counts numbers. At 16 bits a light is within two
 * millionths of the exact one (rule 6.9). Refuses with 9, 10, 16, 11 or 12. */
int64_t kiosk_code_to_light(uint32_t depth, const uint8_t *src, size_t src_len,
                            int32_t *dst, size_t dst_len, size_t *place);

/* Converts light to e-sRGB codes of 10 or 12 bits, clipping: src_len counts numbers. Refuses with 9, 16 or 11. */
int64_t kiosk_light_to_code(uint32_t depth, const int32_t *src, size_t src_len,
                            uint8_t *dst, size_t dst_len);

/* By how many millionths light may be moved, up or down, and still have the code that it was taken from. */
#define KIOSK_STEADY_AT_10_BITS 72
#define KIOSK_STEADY_AT_12_BITS 18

/* Takes e-sRGB codes of 10 or 12 bits to light, adds a move to each number of it, and takes the sums back to codes
 * (rule 6.12): `light` gets the sums, clipped to 32 bits, and `back` the codes. moves_len and light_len count
 * numbers. If no move is greater than KIOSK_STEADY_AT_10_BITS or KIOSK_STEADY_AT_12_BITS, up or down, the codes that
 * come back are those that went. Refuses with 9, 10, 16, 11 or 12; 11 is also for another number of moves. */
int64_t kiosk_through_light(uint32_t depth, const uint8_t *codes, size_t codes_len,
                            const int32_t *moves, size_t moves_len, int32_t *light, size_t light_len,
                            uint8_t *back, size_t back_len, size_t *place);

/* ---- Tints (rule 11): a colour of three channels as one pixel of 12-bit e-sRGB, three codes in `pixel`.
 * Those of doubles give the pixel count, which is 1, or refuse with 17 if a channel is infinite or is not
 * a number; then `pixel` stays as it was, and the place is the first such channel: 0 red, 1 green, 2 blue.
 * Every other double is converted, and clipped to the codes. ---- */

/* A tint of 8-bit sRGB values. It is never refused. */
void kiosk_tint_code(uint8_t red, uint8_t green, uint8_t blue, uint16_t pixel[3]);

/* A tint of nonlinear numbers: 0 is black and 1 is white. */
int64_t kiosk_tint_nonlinear(double red, double green, double blue, uint16_t pixel[3], size_t *place);

/* A tint of linear light: 1 is reference white. */
int64_t kiosk_tint_light(double red, double green, double blue, uint16_t pixel[3], size_t *place);

/* ---- Stickers (rule 13): four tints out of 16 for a picture of 12-bit e-sRGB, and the one of the four that each
 * pixel gets. Pixel and tint are apart by the differences of their codes in the three channels, summed. A pixel gets
 * the nearest tint; of those as near the one with the smallest luma, which is that of kiosk_to_luma_chroma; and of
 * those whose luma is the same too, the one with the lowest number. ---- */

/* The codes of 16 tints: red, green and blue of tint 0, then of tint 1, and so on. Tints may be equal. */
#define KIOSK_TINT_CODES 48

/* Chooses the four tints by which the distances of all pixels have the smallest sum. The 1,820 choices of four
 * numbers are looked at in lexicographic order, from 0, 1, 2, 3 to 12, 13, 14, 15, but no more than `budget` of
 * them; of those with the smallest sum the first is chosen. Gives how many were looked at. dst, one byte for each
 * pixel, gets the number of its tint, 0 to 15; four gets the numbers chosen, ascending; sums[0] gets their sum, and
 * sums[1] the sum with all 16 tints. No choice has a smaller sum than that, so that none is better than the one
 * chosen by more than sums[0] - sums[1]. An empty picture gets 0, 1, 2, 3, and sums of 0.
 * Refuses with 10, 16 or 11, with 12 for a sample of the picture, with 12 for a code of the tints above 4,095, whose
 * place is src_len plus its number from 0 to 47, with 18 or 19, in this order. */
int64_t kiosk_stickers(const uint8_t *src, size_t src_len, const uint16_t tints[KIOSK_TINT_CODES], size_t budget,
                       uint8_t *dst, size_t dst_len, uint8_t four[4], uint32_t sums[2], size_t *place);

/* ---- A printer that kiosks share (rule 14), simulated turn by turn: prints arrive, and one print is made for the next
 * kiosk in turn that has some waiting. ---- */

/* The kiosks at the printer, which count from 0, and what is written for a turn without a print. */
#define KIOSK_PRINTER_KIOSKS 8
#define KIOSK_PRINTER_IDLE 255

/* The limits of arrivals: how many there are at most, the turn that all come before, and the most prints of one. */
#define KIOSK_ARRIVAL_LIMIT 1000
#define KIOSK_TURN_LIMIT 100000
#define KIOSK_PRINT_LIMIT 999

/* Simulates served_len turns, from turn 0 on, and gives their number. Three numbers are an arrival: a turn, a
 * kiosk, and how many prints come for it then; arrivals_len counts numbers. A turn begins with its arrivals. Then a
 * print is made for the first kiosk with prints waiting, going round from the kiosk behind the last one served, or
 * from kiosk 0 until one has been. served[t] gets that kiosk, or KIOSK_PRINTER_IDLE if no kiosk has prints waiting
 * in turn t. Of as many turns as there are kiosks, one serves a kiosk that has prints waiting in the first of them.
 * Refuses with 22 at the first arrival whose kiosk is not one of the printer's, whose prints are none or too many,
 * whose turn is too late or before that of the arrival in front of it, that lacks one of its three numbers, or that
 * is beyond KIOSK_ARRIVAL_LIMIT. Arrivals in turns that are not simulated are looked at too. */
int64_t kiosk_printer(const uint32_t *arrivals, size_t arrivals_len, uint8_t *served, size_t served_len, size_t *place);

/* ---- Spool files (rule 7), of two layouts, told apart by the first two bytes. Where these are 65,535 the spool is
 * strided: its header has 16 bytes, its records have 20, and a record's stride leaves gaps between the rows where it
 * is above the bytes that a row's pixels take. Every other file is plain: a header of 12 bytes, records of 16, and no
 * gaps. All functions that read a spool take both. ---- */

/* The most frames of a spool, of either layout. */
#define KIOSK_FRAME_LIMIT 96

/* Opens a spool: gives the frame count, and *shop and *table (the offset of the record table). Refuses
 * with 1, 2, 20, 3 or 4, in this order, and then both keep what they held. Only a strided spool gets 20. */
int64_t kiosk_open(const uint8_t *file, size_t file_len, uint16_t *shop, uint32_t *table);

/* Finds frame `number`, from 0: gives the length in bytes of its pixels, which start at file +
 * record->offset. That is up to the end of the last row's pixels, with all gaps before it. Refuses as kiosk_open
 * does, then with 5, 6, 7, 21 or 8, in this order, and then the record is all zeros. Only a strided spool gets 21. */
int64_t kiosk_find(const uint8_t *file, size_t file_len, size_t number, struct kiosk_record *record);

/* Finds a frame as kiosk_find does, with its stride: in a plain spool the bytes that a row's pixels take. */
int64_t kiosk_find_strided(const uint8_t *file, size_t file_len, size_t number,
                           struct kiosk_strided_record *record);

/* One step of a walk over the frames: finds frame *next as kiosk_find does. *next is 0 at first; it
 * grows by one at each frame, also at one refused with 6, 7, 21 or 8, and stays after 1, 2, 20, 3, 4 or 5. */
int64_t kiosk_step(const uint8_t *file, size_t file_len, size_t *next, struct kiosk_record *record);

/* The same step with the record of kiosk_find_strided. */
int64_t kiosk_step_strided(const uint8_t *file, size_t file_len, size_t *next,
                           struct kiosk_strided_record *record);

/* Row `row` of frame `number`, both from 0: gives the length in bytes of its pixels, which start at file + *start.
 * From the frame's height on a row is empty: the length is 0, and *start is 0. Refuses as kiosk_find does, and then
 * *start keeps what it held. */
int64_t kiosk_row(const uint8_t *file, size_t file_len, size_t number, size_t row, size_t *start);

/* Lays out a plain spool in dst: writes the header and the record table, with the pixels of the frames one
 * after another behind it, and leaves the pixel bytes as found. The records' own offsets are ignored,
 * and records_len is the number of records. Gives the total length. Refuses with 3, with 6 or 7,
 * whose place is the number of the record from 0, with 14 or 11. */
int64_t kiosk_lay_out(const struct kiosk_record *records, size_t records_len, uint16_t shop,
                      uint8_t *dst, size_t dst_len, size_t *place);

/* Writes a spool in the other layout to dst: a plain one strided, and a strided one plain. Shop, frame count and
 * records stay, but for offsets and strides: the table is right behind the header, then come the pixels of the frames
 * in their order, without gaps, also where frames shared bytes. Gives the total length, which is that of header and
 * table (16 and 20 bytes a record, or 12 and 16) and of width x height pixels of each frame. Refuses as kiosk_open
 * does; with the first of 6, 7, 21 and 8 that the first record at fault deserves, whose place is its number from 0;
 * then with 14 or 11. A frame of two rows or more whose stride is above the bytes of a row gets 21 too. */
int64_t kiosk_relayout(const uint8_t *file, size_t file_len, uint8_t *dst, size_t dst_len, size_t *place);

/* The bytes to lend for a listing: the heading, and the longest line for each frame that a spool can have. */
#define KIOSK_LISTING_ROOM (49 + 52 * KIOSK_FRAME_LIMIT)

/* Writes the listing of a spool file (rules 9.1 to 9.4) at the start of `text` and gives its length;
 * the bytes behind it stay as they were, and no 0 is put there. The listing of a file that does not
 * open is `refused` with the number, and that of one longer than 65,536 bytes is `refused 15`. */
size_t kiosk_listing(const uint8_t *file, size_t file_len, uint8_t text[KIOSK_LISTING_ROOM]);

#ifdef __cplusplus
}
#endif

#endif
