/*
 * The operations in plain C, as a careful programmer would write them, to compare speed with: the same
 * answers and bytes as the proved library, every sample checked before a byte is written.
 */
#include "plain.h"

#include <math.h>

enum {
    NOT_OFFERED = -9,
    NOT_WHOLE_SAMPLES = -10,
    WRONG_ROOM = -11,
    TOO_GREAT = -12,
    CHROMA_ZERO = -13,
    NOT_WHOLE_PIXELS = -16,
    NO_BUDGET = -18,
    TOO_MANY_PIXELS = -19,
    WRONG_ARRIVAL = -22
};

static int offered(uint32_t depth)
{
    return depth == 10 || depth == 12 || depth == 16;
}

/* Has light codes at this depth? Codes of every depth have light. */
static int has_codes(uint32_t depth)
{
    return depth == 10 || depth == 12;
}

static uint32_t sample(const uint8_t *bytes, size_t k)
{
    return (uint32_t)bytes[2 * k] | (uint32_t)bytes[2 * k + 1] << 8;
}

static void put(uint8_t *bytes, size_t k, uint32_t value)
{
    bytes[2 * k] = (uint8_t)value;
    bytes[2 * k + 1] = (uint8_t)(value >> 8);
}

/* The refusals that no sample decides, in their order; 0 if there is none. `sample` is the length of the
 * source's samples. */
static int64_t check_lengths(int is_offered, size_t src_len, size_t sample, size_t dst_len,
                             size_t needed)
{
    if (!is_offered)
        return NOT_OFFERED;
    if (src_len % sample != 0)
        return NOT_WHOLE_SAMPLES;
    if (src_len % (3 * sample) != 0)
        return NOT_WHOLE_PIXELS;
    return dst_len != needed ? WRONG_ROOM : 0;
}

/* The first sample above the greatest of its depth. At 16 bits there is none. */
static int64_t check_codes(uint32_t depth, const uint8_t *src, size_t samples, size_t *place)
{
    uint32_t greatest = (1u << depth) - 1;
    if (depth == 16)
        return 0;
    for (size_t k = 0; k < samples; k++) {
        if (sample(src, k) > greatest) {
            *place = 2 * k;
            return TOO_GREAT;
        }
    }
    return 0;
}

/* The same of luma and chroma, where a chroma of 0 is at fault too. */
static int64_t check_ycc(uint32_t depth, const uint8_t *src, size_t samples, size_t *place)
{
    uint32_t greatest = (1u << depth) - 1;
    for (size_t k = 0; k < samples; k += 3) {
        for (size_t j = k; j < k + 3; j++) {
            uint32_t x = sample(src, j);
            if (x > greatest || (j != k && x == 0)) {
                *place = 2 * j;
                return x == 0 ? CHROMA_ZERO : TOO_GREAT;
            }
        }
    }
    return 0;
}

int64_t plain_from_srgb(uint32_t depth, const uint8_t *src, size_t src_len, uint8_t *dst,
                        size_t dst_len, size_t *place)
{
    (void)place;
    int64_t fault = check_lengths(offered(depth), src_len, 1, dst_len, 2 * src_len);
    if (fault < 0)
        return fault;
    uint32_t step = 1u << (depth - 9), offset = (1u << (depth - 2)) + (1u << (depth - 3));
    for (size_t k = 0; k < src_len; k++)
        put(dst, k, step * src[k] + offset);
    return (int64_t)(src_len / 3);
}

/* *clipped gets the number of pixels with a code below black's or above white's. */
int64_t plain_to_srgb(uint32_t depth, const uint8_t *src, size_t src_len, uint8_t *dst,
                      size_t dst_len, size_t *place, size_t *clipped)
{
    int64_t fault = check_lengths(offered(depth), src_len, 2, dst_len, src_len / 2);
    if (fault == 0)
        fault = check_codes(depth, src, dst_len, place);
    if (fault < 0)
        return fault;
    int32_t shift = (int32_t)depth - 9, half = 1 << (shift - 1), white = 255 << shift;
    int32_t offset = (1 << (depth - 2)) + (1 << (depth - 3));
    size_t count = 0;
    for (size_t k = 0; k < dst_len; k += 3) {
        int outside = 0;
        for (size_t j = k; j < k + 3; j++) {
            int32_t level = (int32_t)sample(src, j) - offset;
            int32_t a = level < 0 ? 0 : (level + half) >> shift;
            dst[j] = (uint8_t)(a > 255 ? 255 : a);
            outside |= level < 0 || level > white;
        }
        count += (size_t)outside;
    }
    *clipped = count;
    return (int64_t)(src_len / 6);
}

int64_t plain_change_depth(uint32_t from, uint32_t to, const uint8_t *src, size_t src_len,
                           uint8_t *dst, size_t dst_len, size_t *place)
{
    int64_t fault = check_lengths(offered(from) && offered(to), src_len, 2, dst_len, src_len);
    if (fault == 0)
        fault = check_codes(from, src, src_len / 2, place);
    if (fault < 0)
        return fault;
    if (to >= from) {
        for (size_t k = 0; k < src_len / 2; k++)
            put(dst, k, sample(src, k) << (to - from));
    } else {
        uint32_t shift = from - to, half = 1u << (shift - 1), greatest = (1u << to) - 1;
        for (size_t k = 0; k < src_len / 2; k++) {
            uint32_t x = (sample(src, k) + half) >> shift;
            put(dst, k, x > greatest ? greatest : x);
        }
    }
    return (int64_t)(src_len / 6);
}

/* To the nearest, ties towards zero, for an even denominator. */
static int32_t nearest_low(int32_t num, int32_t den)
{
    int32_t magnitude = ((num < 0 ? -num : num) + den / 2 - 1) / den;
    return num < 0 ? -magnitude : magnitude;
}

static inline uint32_t luma(uint32_t r, uint32_t g, uint32_t b)
{
    return (299 * r + 587 * g + 114 * b + 500) / 1000;
}

int64_t plain_to_luma_chroma(uint32_t depth, const uint8_t *src, size_t src_len, uint8_t *dst,
                             size_t dst_len, size_t *place)
{
    int64_t fault = check_lengths(offered(depth), src_len, 2, dst_len, src_len);
    if (fault == 0)
        fault = check_codes(depth, src, src_len / 2, place);
    if (fault < 0)
        return fault;
    int32_t middle = 1 << (depth - 1);
    for (size_t k = 0; k < src_len / 2; k += 3) {
        int32_t r = (int32_t)sample(src, k), g = (int32_t)sample(src, k + 1);
        int32_t b = (int32_t)sample(src, k + 2);
        put(dst, k, luma((uint32_t)r, (uint32_t)g, (uint32_t)b));
        put(dst, k + 1, (uint32_t)(nearest_low(-299 * r - 587 * g + 886 * b, 1772) + middle));
        put(dst, k + 2, (uint32_t)(nearest_low(701 * r - 587 * g - 114 * b, 1402) + middle));
    }
    return (int64_t)(src_len / 6);
}

/* To the nearest, ties upward, clipped to a code. A quotient below 0 is clipped to 0. */
static uint32_t code_of(int64_t num, int64_t den, uint32_t greatest)
{
    int64_t code = num < 0 ? 0 : (num + den / 2) / den;
    return code > greatest ? greatest : (uint32_t)code;
}

int64_t plain_from_luma_chroma(uint32_t depth, const uint8_t *src, size_t src_len, uint8_t *dst,
                               size_t dst_len, size_t *place)
{
    int64_t fault = check_lengths(offered(depth), src_len, 2, dst_len, src_len);
    if (fault == 0)
        fault = check_ycc(depth, src, src_len / 2, place);
    if (fault < 0)
        return fault;
    int64_t middle = 1 << (depth - 1);
    uint32_t greatest = (1u << depth) - 1;
    for (size_t k = 0; k < src_len / 2; k += 3) {
        int64_t y = sample(src, k);
        int64_t cb = (int64_t)sample(src, k + 1) - middle, cr = (int64_t)sample(src, k + 2) - middle;
        put(dst, k, code_of(1000 * y + 1402 * cr, 1000, greatest));
        put(dst, k + 1, code_of(587000 * y - (202008 * cb + 419198 * cr), 587000, greatest));
        put(dst, k + 2, code_of(1000 * y + 1772 * cb, 1000, greatest));
    }
    return (int64_t)(src_len / 6);
}

/* ---- e-sYCC and sYCC. Each loop is compiled for each depth, so that what it divides by is a constant ---- */

typedef void pixel_loop(uint32_t depth, const uint8_t *src, size_t pixels, uint8_t *dst);

static inline void at_depth(pixel_loop loop, uint32_t depth, const uint8_t *src, size_t pixels, uint8_t *dst)
{
    switch (depth) {
    case 10:
        loop(10, src, pixels, dst);
        break;
    case 12:
        loop(12, src, pixels, dst);
        break;
    default:
        loop(16, src, pixels, dst);
    }
}

/* The level of a code, and that of reference white. */
static inline int64_t level(uint32_t depth, const uint8_t *src, size_t k)
{
    return (int64_t)sample(src, k) - (3 << (depth - 3));
}

static inline int64_t scale(uint32_t depth)
{
    return 255 << (depth - 9);
}

/* The luma of three levels in thousandths; and how far blue and red are above it. */
struct ycc {
    int64_t y, blue, red;
};

static inline struct ycc ycc_of(uint32_t depth, const uint8_t *src, size_t k)
{
    int64_t r = level(depth, src, k), g = level(depth, src, k + 1), b = level(depth, src, k + 2);
    struct ycc ycc = {299 * r + 587 * g + 114 * b, -299 * r - 587 * g + 886 * b,
                      701 * r - 587 * g - 114 * b};
    return ycc;
}

static inline void to_esycc(uint32_t depth, const uint8_t *src, size_t pixels, uint8_t *dst)
{
    const int64_t top = (1 << depth) - 1, middle = 1 << (depth - 1), white = scale(depth);
    for (size_t k = 0; k < 3 * pixels; k += 3) {
        struct ycc ycc = ycc_of(depth, src, k);
        put(dst, k, code_of(top * ycc.y, 1000 * white, (uint32_t)top));
        put(dst, k + 1, code_of(top * ycc.blue + middle * 3544 * white, 3544 * white, (uint32_t)top));
        put(dst, k + 2, code_of(top * ycc.red + middle * 2804 * white, 2804 * white, (uint32_t)top));
    }
}

static inline int64_t clip(int64_t x, int64_t limit)
{
    return x < -limit ? -limit : x > limit ? limit : x;
}

/* Chroma is clipped to half of white's range on either side, 1772 / 2 and 1402 / 2, before it is made a byte. */
static inline void to_sycc(uint32_t depth, const uint8_t *src, size_t pixels, uint8_t *dst)
{
    const int64_t white = scale(depth);
    for (size_t k = 0; k < 3 * pixels; k += 3) {
        struct ycc ycc = ycc_of(depth, src, k);
        int64_t blue = clip(ycc.blue, 886 * white), red = clip(ycc.red, 701 * white);
        dst[k] = (uint8_t)code_of(255 * ycc.y, 1000 * white, 255);
        dst[k + 1] = (uint8_t)code_of(255 * blue + 128 * 1772 * white, 1772 * white, 255);
        dst[k + 2] = (uint8_t)code_of(255 * red + 128 * 1402 * white, 1402 * white, 255);
    }
}

/* Writes three codes: the standard's matrix, in ten-thousandths, times num over den, from the offset on. */
static inline void put_codes(uint32_t depth, uint8_t *dst, size_t k, struct ycc ycc, int64_t num, int64_t den)
{
    const uint32_t top = (1u << depth) - 1;
    const int64_t offset = (3 << (depth - 3)) * den;
    put(dst, k, code_of(num * (10000 * ycc.y + 28040 * ycc.red) + offset, den, top));
    put(dst, k + 1, code_of(num * (10000 * ycc.y - 6882 * ycc.blue - 14282 * ycc.red) + offset, den, top));
    put(dst, k + 2, code_of(num * (10000 * ycc.y + 35440 * ycc.blue + 3 * ycc.red) + offset, den, top));
}

static inline void from_esycc(uint32_t depth, const uint8_t *src, size_t pixels, uint8_t *dst)
{
    const int64_t top = (1 << depth) - 1, middle = 1 << (depth - 1);
    for (size_t k = 0; k < 3 * pixels; k += 3) {
        struct ycc ycc = {sample(src, k), (int64_t)sample(src, k + 1) - middle,
                          (int64_t)sample(src, k + 2) - middle};
        put_codes(depth, dst, k, ycc, scale(depth), 10000 * top);
    }
}

/* In quarters of a 255th: that is what is left of chroma's halves when they are halved. */
static inline void from_sycc(uint32_t depth, const uint8_t *src, size_t pixels, uint8_t *dst)
{
    for (size_t k = 0; k < 3 * pixels; k += 3) {
        struct ycc ycc = {4 * src[k], 2 * src[k + 1] - 255, 2 * src[k + 2] - 255};
        put_codes(depth, dst, k, ycc, 1 << (depth - 9), 40000);
    }
}

/* Checks a source of two-byte samples and the lengths, and converts. */
static inline int64_t by_loop(pixel_loop loop, uint32_t depth, const uint8_t *src, size_t src_len,
                              uint8_t *dst, size_t dst_len, size_t needed, size_t *place)
{
    int64_t fault = check_lengths(offered(depth), src_len, 2, dst_len, needed);
    if (fault == 0)
        fault = check_codes(depth, src, src_len / 2, place);
    if (fault < 0)
        return fault;
    at_depth(loop, depth, src, src_len / 6, dst);
    return (int64_t)(src_len / 6);
}

int64_t plain_to_esycc(uint32_t depth, const uint8_t *src, size_t src_len, uint8_t *dst,
                       size_t dst_len, size_t *place)
{
    return by_loop(to_esycc, depth, src, src_len, dst, dst_len, src_len, place);
}

int64_t plain_from_esycc(uint32_t depth, const uint8_t *src, size_t src_len, uint8_t *dst,
                         size_t dst_len, size_t *place)
{
    return by_loop(from_esycc, depth, src, src_len, dst, dst_len, src_len, place);
}

int64_t plain_to_sycc(uint32_t depth, const uint8_t *src, size_t src_len, uint8_t *dst,
                      size_t dst_len, size_t *place)
{
    return by_loop(to_sycc, depth, src, src_len, dst, dst_len, src_len / 2, place);
}

int64_t plain_from_sycc(uint32_t depth, const uint8_t *src, size_t src_len, uint8_t *dst,
                        size_t dst_len, size_t *place)
{
    (void)place;
    int64_t fault = check_lengths(offered(depth), src_len, 1, dst_len, 2 * src_len);
    if (fault < 0)
        return fault;
    at_depth(from_sycc, depth, src, src_len / 3, dst);
    return (int64_t)(src_len / 3);
}

/* Light of each 12-bit level, with one level more than codes have, and the least light of each level of a depth. */
static uint32_t lights[2561];
static uint32_t thresholds10[640], thresholds12[2560];

void plain_set_tables(const uint32_t *light, const uint32_t *ten, const uint32_t *twelve)
{
    for (size_t i = 0; i < 2561; i++)
        lights[i] = light[i];
    for (size_t i = 0; i < 640; i++)
        thresholds10[i] = ten[i];
    for (size_t i = 0; i < 2560; i++)
        thresholds12[i] = twelve[i];
}

/* The light of each code of 10 or 12 bits: its level, at 12 bits, has an entry. */
static void lights_of_levels(uint32_t depth, const uint8_t *src, int32_t *dst, size_t count)
{
    for (size_t k = 0; k < count; k++) {
        int32_t level = (int32_t)(sample(src, k) << (12 - depth)) - 1536;
        dst[k] = level < 0 ? -(int32_t)lights[-level] : (int32_t)lights[level];
    }
}

/* The light of each code of 16 bits, on the line between two entries. */
static void lights_between_levels(const uint8_t *src, int32_t *dst, size_t count)
{
    for (size_t k = 0; k < count; k++) {
        int32_t level = (int32_t)sample(src, k) - 24576;
        uint32_t size = (uint32_t)(level < 0 ? -level : level), part = size % 16;
        const uint32_t *entry = &lights[size / 16];
        int32_t light = (int32_t)((entry[0] * (16 - part) + entry[1] * part + 8) / 16);
        dst[k] = level < 0 ? -light : light;
    }
}

int64_t plain_code_to_light(uint32_t depth, const uint8_t *src, size_t src_len, int32_t *dst,
                            size_t dst_len, size_t *place)
{
    int64_t fault = check_lengths(offered(depth), src_len, 2, dst_len, src_len / 2);
    if (fault == 0)
        fault = check_codes(depth, src, dst_len, place);
    if (fault < 0)
        return fault;
    if (depth == 16)
        lights_between_levels(src, dst, dst_len);
    else
        lights_of_levels(depth, src, dst, dst_len);
    return (int64_t)(src_len / 6);
}

/* The code of a light, clipped: its level is the last whose threshold it reaches. */
static uint32_t code_of_light(const uint32_t *thresholds, uint32_t levels, uint32_t offset, int32_t light)
{
    uint32_t q = light < 0 ? 0u - (uint32_t)light : (uint32_t)light;
    uint32_t low = 0, high = levels;
    while (high - low > 1) {
        uint32_t middle = low + (high - low) / 2;
        if (thresholds[middle] <= q)
            low = middle;
        else
            high = middle;
    }
    return light >= 0 ? offset + low : low < offset ? offset - low : 0;
}

/* The code of each light. */
static void codes_of_lights(uint32_t depth, const int32_t *src, size_t count, uint8_t *dst)
{
    const uint32_t *thresholds = depth == 10 ? thresholds10 : thresholds12;
    uint32_t levels = depth == 10 ? 640 : 2560, offset = depth == 10 ? 384 : 1536;
    for (size_t k = 0; k < count; k++)
        put(dst, k, code_of_light(thresholds, levels, offset, src[k]));
}

int64_t plain_light_to_code(uint32_t depth, const int32_t *src, size_t src_len, uint8_t *dst,
                            size_t dst_len)
{
    int64_t fault = check_lengths(has_codes(depth), src_len, 1, dst_len, 2 * src_len);
    if (fault < 0)
        return fault;
    codes_of_lights(depth, src, src_len, dst);
    return (int64_t)(src_len / 3);
}

/* A sum, clipped to 32 bits. */
static int32_t moved(int32_t light, int32_t move)
{
    int64_t sum = (int64_t)light + move;
    return sum < INT32_MIN ? INT32_MIN : sum > INT32_MAX ? INT32_MAX : (int32_t)sum;
}

int64_t plain_through_light(uint32_t depth, const uint8_t *codes, size_t codes_len, const int32_t *moves,
                            size_t moves_len, int32_t *light, size_t light_len, uint8_t *back,
                            size_t back_len, size_t *place)
{
    int64_t fault = check_lengths(has_codes(depth), codes_len, 2, light_len, codes_len / 2);
    if (fault == 0 && (moves_len != light_len || back_len != codes_len))
        fault = WRONG_ROOM;
    if (fault == 0)
        fault = check_codes(depth, codes, light_len, place);
    if (fault < 0)
        return fault;
    lights_of_levels(depth, codes, light, light_len);
    for (size_t k = 0; k < light_len; k++)
        light[k] = moved(light[k], moves[k]);
    codes_of_lights(depth, light, light_len, back);
    return (int64_t)(codes_len / 6);
}

int64_t plain_tint_code(uint8_t red, uint8_t green, uint8_t blue, uint16_t pixel[3])
{
    const uint8_t values[3] = {red, green, blue};
    for (size_t k = 0; k < 3; k++)
        pixel[k] = (uint16_t)(8 * values[k] + 1536);
    return 1;
}

/* 0, or a refusal if a channel is infinite or not a number. */
static int64_t check_channels(const double channels[3], size_t *place)
{
    for (size_t k = 0; k < 3; k++)
        if (!isfinite(channels[k])) {
            *place = k;
            return -17;
        }
    return 0;
}

/* To the nearest whole number, ties upward, clipped. */
static int32_t nearest_within(double x, int32_t low, int32_t high)
{
    if (x <= low)
        return low;
    if (x >= high)
        return high;
    int32_t whole = (int32_t)x;
    if (x < whole)
        whole--;
    return x - whole >= 0.5 ? whole + 1 : whole;
}

int64_t plain_tint_nonlinear(double red, double green, double blue, uint16_t pixel[3], size_t *place)
{
    const double channels[3] = {red, green, blue};
    int64_t fault = check_channels(channels, place);
    if (fault < 0)
        return fault;
    for (size_t k = 0; k < 3; k++)
        pixel[k] = (uint16_t)nearest_within(channels[k] * 2040.0 + 1536.0, 0, 4095);
    return 1;
}

int64_t plain_tint_light(double red, double green, double blue, uint16_t pixel[3], size_t *place)
{
    const double channels[3] = {red, green, blue};
    int64_t fault = check_channels(channels, place);
    if (fault < 0)
        return fault;
    for (size_t k = 0; k < 3; k++) {
        int32_t light = nearest_within(channels[k] * 1000000.0, -2000000, 2000000);
        pixel[k] = (uint16_t)code_of_light(thresholds12, 2560, 1536, light);
    }
    return 1;
}

/* ---- Stickers: four tints out of 16 ---- */

enum { TINTS = 16, CHOICES = 1820, MOST_PIXELS = 65536, BLOCK = 256 };

/* The refusals in their order; 0 if there is none. */
static int64_t check_stickers(const uint8_t *src, size_t src_len, const uint16_t *tints, size_t budget,
                              size_t dst_len, size_t *place)
{
    int64_t fault = check_lengths(1, src_len, 2, dst_len, src_len / 6);
    if (fault == 0)
        fault = check_codes(12, src, src_len / 2, place);
    if (fault < 0)
        return fault;
    for (size_t k = 0; k < 3 * TINTS; k++)
        if (tints[k] > 4095) {
            *place = src_len + k;
            return TOO_GREAT;
        }
    if (budget == 0)
        return NO_BUDGET;
    return dst_len > MOST_PIXELS ? TOO_MANY_PIXELS : 0;
}

/* The numbers of four tints, ascending. */
struct choice {
    uint8_t a, b, c, d;
};

static const struct choice first_choice = {0, 1, 2, 3};

/* The next choice in lexicographic order, of any but the last. */
static struct choice next_choice(struct choice k)
{
    if (k.d < 15) {
        k.d++;
        return k;
    }
    if (k.c < 14)
        k.c++;
    else {
        if (k.b < 13)
            k.b++;
        else {
            k.a++;
            k.b = (uint8_t)(k.a + 1);
        }
        k.c = (uint8_t)(k.b + 1);
    }
    k.d = (uint8_t)(k.c + 1);
    return k;
}

/* How far a pixel is from a tint. */
static uint16_t distance(const uint8_t *src, size_t pixel, const uint16_t *tints, size_t tint)
{
    int32_t sum = 0;
    for (size_t k = 0; k < 3; k++) {
        int32_t difference = (int32_t)sample(src, 3 * pixel + k) - tints[3 * tint + k];
        sum += difference < 0 ? -difference : difference;
    }
    return (uint16_t)sum;
}

static inline uint16_t least(uint16_t x, uint16_t y)
{
    return x < y ? x : y;
}

/* The luma of each tint. */
static void put_lumas(const uint16_t *tints, uint16_t lumas[TINTS])
{
    for (size_t t = 0; t < TINTS; t++)
        lumas[t] = (uint16_t)luma(tints[3 * t], tints[3 * t + 1], tints[3 * t + 2]);
}

/* Each pixel's nearest of the four tints, of those as near the darkest, and the first of these. */
static void write_nearest(const uint8_t *src, size_t pixels, const uint16_t *tints, const uint8_t four[4],
                          uint8_t *dst)
{
    uint16_t lumas[TINTS];
    put_lumas(tints, lumas);
    for (size_t p = 0; p < pixels; p++) {
        uint16_t shortest = distance(src, p, tints, four[0]);
        uint8_t nearest = four[0];
        for (size_t k = 1; k < 4; k++) {
            uint16_t next = distance(src, p, tints, four[k]);
            if (next < shortest || (next == shortest && lumas[four[k]] < lumas[nearest])) {
                shortest = next;
                nearest = four[k];
            }
        }
        dst[p] = nearest;
    }
}

/* The same by one number for distance, luma and number of a tint, of which the least is taken. */
static void write_by_rank(const uint8_t *src, size_t pixels, const uint16_t *tints, const uint8_t four[4],
                          uint8_t *dst)
{
    uint16_t lumas[TINTS];
    put_lumas(tints, lumas);
    for (size_t p = 0; p < pixels; p++) {
        uint32_t first = UINT32_MAX;
        for (size_t k = 0; k < 4; k++) {
            uint32_t rank = (uint32_t)distance(src, p, tints, four[k]) << 16 | (uint32_t)lumas[four[k]] << 4 | four[k];
            first = rank < first ? rank : first;
        }
        dst[p] = (uint8_t)(first % TINTS);
    }
}

/* Puts the first choice with the smallest of these sums, and gives that sum. */
static uint32_t put_best(const uint32_t *totals, size_t limit, uint8_t four[4])
{
    struct choice k = first_choice, best = k;
    uint32_t smallest = totals[0];
    for (size_t i = 1; i < limit; i++) {
        k = next_choice(k);
        if (totals[i] < smallest) {
            smallest = totals[i];
            best = k;
        }
    }
    four[0] = best.a;
    four[1] = best.b;
    four[2] = best.c;
    four[3] = best.d;
    return smallest;
}

/* The distances of a block of pixels, in a row for each tint. Gives the sum of those to the nearest tint. */
static uint32_t fill_rows(const uint8_t *src, size_t count, const uint16_t *tints, uint16_t *rows)
{
    uint32_t sum = 0;
    for (size_t p = 0; p < count; p++) {
        uint16_t shortest = UINT16_MAX;
        for (size_t t = 0; t < TINTS; t++) {
            uint16_t next = distance(src, p, tints, t);
            rows[BLOCK * t + p] = next;
            shortest = least(shortest, next);
        }
        sum += shortest;
    }
    return sum;
}

/* What a block adds to the sum of a choice. */
static uint32_t sum_of_rows(const uint16_t *rows, struct choice k, size_t count)
{
    const uint16_t *a = rows + BLOCK * k.a, *b = rows + BLOCK * k.b;
    const uint16_t *c = rows + BLOCK * k.c, *d = rows + BLOCK * k.d;
    uint32_t sum = 0;
    for (size_t p = 0; p < count; p++)
        sum += least(least(least(a[p], b[p]), c[p]), d[p]);
    return sum;
}

/* Adds a block to the sums of the first choices. */
static void add_block(const uint16_t *rows, size_t count, uint32_t *totals, size_t limit)
{
    struct choice k = first_choice;
    for (size_t i = 0; i < limit; i++) {
        totals[i] += sum_of_rows(rows, k, count);
        k = next_choice(k);
    }
}

/* Adds a picture to the sums of the first choices, block by block. Gives the sum with all tints. */
static uint32_t add_blocks(const uint8_t *src, size_t pixels, const uint16_t *tints, uint32_t *totals, size_t limit)
{
    uint32_t with_all = 0;
    uint16_t rows[BLOCK * TINTS];
    for (size_t start = 0; start < pixels; start += BLOCK) {
        size_t count = pixels - start < BLOCK ? pixels - start : BLOCK;
        with_all += fill_rows(src + 6 * start, count, tints, rows);
        add_block(rows, count, totals, limit);
    }
    return with_all;
}

/* Adds a pixel to the sums of the first choices. */
static void add_pixel(const uint16_t distances[TINTS], uint32_t *totals, size_t limit)
{
    struct choice k = first_choice;
    for (size_t i = 0; i < limit; i++) {
        totals[i] += least(least(distances[k.a], distances[k.b]), least(distances[k.c], distances[k.d]));
        k = next_choice(k);
    }
}

/* The same pixel by pixel. */
static uint32_t add_pixels(const uint8_t *src, size_t pixels, const uint16_t *tints, uint32_t *totals, size_t limit)
{
    uint32_t with_all = 0;
    for (size_t p = 0; p < pixels; p++) {
        uint16_t distances[TINTS], shortest = UINT16_MAX;
        for (size_t t = 0; t < TINTS; t++) {
            distances[t] = distance(src, p, tints, t);
            shortest = least(shortest, distances[t]);
        }
        with_all += shortest;
        add_pixel(distances, totals, limit);
    }
    return with_all;
}

/* Stickers, with the sums made and the tints found by one method or the other. */
static inline int64_t stickers_by(uint32_t (*add)(const uint8_t *, size_t, const uint16_t *, uint32_t *, size_t),
                                  void (*write)(const uint8_t *, size_t, const uint16_t *, const uint8_t *, uint8_t *),
                                  const uint8_t *src, size_t src_len, const uint16_t *tints, size_t budget,
                                  uint8_t *dst, size_t dst_len, uint8_t four[4], uint32_t sums[2], size_t *place)
{
    int64_t fault = check_stickers(src, src_len, tints, budget, dst_len, place);
    if (fault < 0)
        return fault;
    size_t limit = budget < CHOICES ? budget : CHOICES;
    uint32_t totals[CHOICES] = {0};
    sums[1] = add(src, dst_len, tints, totals, limit);
    sums[0] = put_best(totals, limit, four);
    write(src, dst_len, tints, four, dst);
    return (int64_t)limit;
}

int64_t plain_stickers(const uint8_t *src, size_t src_len, const uint16_t tints[48], size_t budget,
                       uint8_t *dst, size_t dst_len, uint8_t four[4], uint32_t sums[2], size_t *place)
{
    return stickers_by(add_blocks, write_by_rank, src, src_len, tints, budget, dst, dst_len, four, sums, place);
}

int64_t obvious_stickers(const uint8_t *src, size_t src_len, const uint16_t tints[48], size_t budget,
                         uint8_t *dst, size_t dst_len, uint8_t four[4], uint32_t sums[2], size_t *place)
{
    return stickers_by(add_pixels, write_nearest, src, src_len, tints, budget, dst, dst_len, four, sums, place);
}

/* ---- The printer that kiosks share ---- */

enum { KIOSKS = 8, IDLE = 255, MOST_ARRIVALS = 1000, TURN_LIMIT = 100000, MOST_PRINTS = 999 };

/* The first arrival at fault: each is a turn, a kiosk and prints, and the last may lack some of them. */
static int64_t check_arrivals(const uint32_t *arrivals, size_t arrivals_len, size_t *place)
{
    uint32_t before = 0;
    for (size_t k = 0; 3 * k < arrivals_len; k++) {
        const uint32_t *a = arrivals + 3 * k;
        if (k == MOST_ARRIVALS || arrivals_len - 3 * k < 3 || a[0] < before || a[0] >= TURN_LIMIT
            || a[1] >= KIOSKS || a[2] == 0 || a[2] > MOST_PRINTS) {
            *place = k;
            return WRONG_ARRIVAL;
        }
        before = a[0];
    }
    return 0;
}

/* The first kiosk with prints waiting, going round from this one; KIOSKS if there is none. */
static uint32_t next_waiting(const uint32_t waiting[KIOSKS], uint32_t from)
{
    for (uint32_t k = 0; k < KIOSKS; k++) {
        uint32_t kiosk = (from + k) % KIOSKS;
        if (waiting[kiosk] > 0)
            return kiosk;
    }
    return KIOSKS;
}

int64_t plain_printer(const uint32_t *arrivals, size_t arrivals_len, uint8_t *served, size_t served_len, size_t *place)
{
    int64_t fault = check_arrivals(arrivals, arrivals_len, place);
    if (fault < 0)
        return fault;
    uint32_t waiting[KIOSKS] = {0}, from = 0;
    size_t next = 0;
    for (size_t turn = 0; turn < served_len; turn++) {
        for (; next < arrivals_len && arrivals[next] == turn; next += 3)
            waiting[arrivals[next + 1]] += arrivals[next + 2];
        uint32_t kiosk = next_waiting(waiting, from);
        if (kiosk == KIOSKS) {
            served[turn] = IDLE;
            continue;
        }
        served[turn] = (uint8_t)kiosk;
        waiting[kiosk]--;
        from = (kiosk + 1) % KIOSKS;
    }
    return (int64_t)served_len;
}
