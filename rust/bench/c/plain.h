/* The operations in plain C: the answer is the pixel count, or a refusal's number below 0. */
#ifndef PLAIN_H
#define PLAIN_H

#include <stddef.h>
#include <stdint.h>

int64_t plain_from_srgb(uint32_t depth, const uint8_t *src, size_t src_len, uint8_t *dst,
                        size_t dst_len, size_t *place);
int64_t plain_to_srgb(uint32_t depth, const uint8_t *src, size_t src_len, uint8_t *dst,
                      size_t dst_len, size_t *place, size_t *clipped);
int64_t plain_change_depth(uint32_t from, uint32_t to, const uint8_t *src, size_t src_len,
                           uint8_t *dst, size_t dst_len, size_t *place);
int64_t plain_to_luma_chroma(uint32_t depth, const uint8_t *src, size_t src_len, uint8_t *dst,
                             size_t dst_len, size_t *place);
int64_t plain_from_luma_chroma(uint32_t depth, const uint8_t *src, size_t src_len, uint8_t *dst,
                               size_t dst_len, size_t *place);
int64_t plain_to_esycc(uint32_t depth, const uint8_t *src, size_t src_len, uint8_t *dst,
                       size_t dst_len, size_t *place);
int64_t plain_from_esycc(uint32_t depth, const uint8_t *src, size_t src_len, uint8_t *dst,
                         size_t dst_len, size_t *place);
int64_t plain_to_sycc(uint32_t depth, const uint8_t *src, size_t src_len, uint8_t *dst,
                      size_t dst_len, size_t *place);
int64_t plain_from_sycc(uint32_t depth, const uint8_t *src, size_t src_len, uint8_t *dst,
                        size_t dst_len, size_t *place);
int64_t plain_code_to_light(uint32_t depth, const uint8_t *src, size_t src_len, int32_t *dst,
                            size_t dst_len, size_t *place);
int64_t plain_light_to_code(uint32_t depth, const int32_t *src, size_t src_len, uint8_t *dst,
                            size_t dst_len);
int64_t plain_through_light(uint32_t depth, const uint8_t *codes, size_t codes_len, const int32_t *moves,
                            size_t moves_len, int32_t *light, size_t light_len, uint8_t *back,
                            size_t back_len, size_t *place);

/* Tints: the answer is 1, and `place` the channel at fault. */
int64_t plain_tint_code(uint8_t red, uint8_t green, uint8_t blue, uint16_t pixel[3]);
int64_t plain_tint_nonlinear(double red, double green, double blue, uint16_t pixel[3], size_t *place);
int64_t plain_tint_light(double red, double green, double blue, uint16_t pixel[3], size_t *place);

/* Stickers: the answer is the number of choices looked at. The first goes about it as the library does, in blocks of
 * pixels; the second in the obvious way, pixel by pixel. */
int64_t plain_stickers(const uint8_t *src, size_t src_len, const uint16_t tints[48], size_t budget,
                       uint8_t *dst, size_t dst_len, uint8_t four[4], uint32_t sums[2], size_t *place);
int64_t obvious_stickers(const uint8_t *src, size_t src_len, const uint16_t tints[48], size_t budget,
                         uint8_t *dst, size_t dst_len, uint8_t four[4], uint32_t sums[2], size_t *place);

/* The printer that kiosks share: the answer is the number of turns, and `place` the arrival at fault. */
int64_t plain_printer(const uint32_t *arrivals, size_t arrivals_len, uint8_t *served, size_t served_len, size_t *place);

/* The light of each 12-bit level from 0 to 2,560, and the least light of each level at 10 bits (640) and 12 (2,560). */
void plain_set_tables(const uint32_t *light, const uint32_t *ten, const uint32_t *twelve);

#endif
