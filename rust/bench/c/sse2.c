/*
 * The conversions but those of e-sYCC and sYCC by hand for SSE2, which every x86-64 processor has, to compare
 * speed with: what the machine gives to someone who writes its instructions out. The same answers and bytes as
 * plain C, which takes the few pixels that the vectors leave over, and every source that the quick look does not
 * find sound.
 */
#include <emmintrin.h>

#include "plain.h"

static int offered(uint32_t depth)
{
    return depth == 10 || depth == 12 || depth == 16;
}

static __m128i load(const uint8_t *at)
{
    return _mm_loadu_si128((const __m128i *)at);
}

static void store(uint8_t *at, __m128i x)
{
    _mm_storeu_si128((__m128i *)at, x);
}

/* Eight times a 16-bit number, four times a 32-bit number, and four times a pair of 16-bit numbers. */
static __m128i words(uint32_t x)
{
    return _mm_set1_epi16((short)x);
}

static __m128i longs(uint32_t x)
{
    return _mm_set1_epi32((int)x);
}

static __m128i pair(int32_t low, int32_t high)
{
    return longs(((uint32_t)low & 0xffff) | (uint32_t)high << 16);
}

/* How far a code is above the greatest; and, for luma and chroma, how far below 1. */
static __m128i code_fault(__m128i x, __m128i greatest)
{
    return _mm_subs_epu16(x, greatest);
}

static __m128i ycc_fault(__m128i x, __m128i greatest)
{
    return _mm_or_si128(_mm_subs_epu16(x, greatest), _mm_subs_epu16(words(1), x));
}

/* The quick look: is a source of whole samples sound, by one of the faults? The last look overlaps the one before. */
static inline int sound(__m128i fault(__m128i, __m128i), uint32_t depth, const uint8_t *src,
                        size_t len)
{
    const __m128i greatest = words((1u << depth) - 1);
    if (len < 16)
        return 0;
    __m128i out = fault(load(src + len - 16), greatest);
    for (size_t i = 0; i + 16 <= len; i += 16)
        out = _mm_or_si128(out, fault(load(src + i), greatest));
    return _mm_movemask_epi8(_mm_cmpeq_epi8(out, _mm_setzero_si128())) == 0xffff;
}

/* At 16 bits no code is at fault. A luma of 0 is none either, which plain C sees. */
static int codes_sound(uint32_t depth, const uint8_t *src, size_t len)
{
    return depth == 16 || sound(code_fault, depth, src, len);
}

static int ycc_sound(uint32_t depth, const uint8_t *src, size_t len)
{
    return sound(ycc_fault, depth, src, len);
}

/* ---- sample by sample: 48 samples are 16 pixels, and plain C takes fewer */

int64_t sse2_from_srgb(uint32_t depth, const uint8_t *src, size_t src_len, uint8_t *dst,
                       size_t dst_len, size_t *place)
{
    if (!offered(depth) || src_len % 3 != 0 || dst_len % 2 != 0 || dst_len / 2 != src_len)
        return plain_from_srgb(depth, src, src_len, dst, dst_len, place);
    size_t bulk = src_len / 48 * 48;
    const __m128i shift = _mm_cvtsi32_si128((int)depth - 9), offset = words(3u << (depth - 3));
    const __m128i zero = _mm_setzero_si128();
    for (size_t i = 0; i < bulk; i += 16) {
        __m128i x = load(src + i);
        __m128i low = _mm_unpacklo_epi8(x, zero), high = _mm_unpackhi_epi8(x, zero);
        store(dst + 2 * i, _mm_add_epi16(_mm_sll_epi16(low, shift), offset));
        store(dst + 2 * i + 16, _mm_add_epi16(_mm_sll_epi16(high, shift), offset));
    }
    plain_from_srgb(depth, src + bulk, src_len - bulk, dst + 2 * bulk, dst_len - 2 * bulk, place);
    return (int64_t)(src_len / 3);
}

/* Of 16 pixels, how many have a sample above a limit. */
static size_t pixels_above(const __m128i samples[6], __m128i limit)
{
    uint64_t bits = 0;
    for (int k = 0; k < 3; k++) {
        __m128i low = _mm_cmpgt_epi16(samples[2 * k], limit), high = _mm_cmpgt_epi16(samples[2 * k + 1], limit);
        bits |= (uint64_t)_mm_movemask_epi8(_mm_packs_epi16(low, high)) << (16 * k);
    }
    /* A pixel's bits in the lowest of its three; the sums of every two pixels; and of all eight sums, by a product. */
    uint64_t pixels = (bits | bits >> 1 | bits >> 2) & 0x249249249249u;
    uint64_t sums = (pixels + (pixels >> 3)) & 0x0c30c30c30c3u;
    return (size_t)(sums * 0x041041041041u >> 42 & 63);
}

/* Converts 16 pixels and gives how many are clipped. Black is brought to the least signed number, so that what is
 * below it wraps around, and all that is clipped is above white. */
static inline size_t sixteen_to_srgb(const uint8_t *src, uint8_t *dst, __m128i shift, __m128i low,
                                     __m128i black, __m128i white)
{
    __m128i bytes[6], levels[6], greatest = words(32768);
    for (int k = 0; k < 6; k++) {
        __m128i x = load(src + 16 * k);
        bytes[k] = _mm_srl_epi16(_mm_subs_epu16(x, low), shift);
        levels[k] = _mm_sub_epi16(x, black);
        greatest = _mm_max_epi16(greatest, levels[k]);
    }
    for (int k = 0; k < 3; k++)
        store(dst + 16 * k, _mm_packus_epi16(bytes[2 * k], bytes[2 * k + 1]));
    if (_mm_movemask_epi8(_mm_cmpgt_epi16(greatest, white)) == 0)
        return 0;
    return pixels_above(levels, white);
}

int64_t sse2_to_srgb(uint32_t depth, const uint8_t *src, size_t src_len, uint8_t *dst,
                     size_t dst_len, size_t *place, size_t *clipped)
{
    if (!offered(depth) || src_len % 6 != 0 || dst_len != src_len / 2
        || !codes_sound(depth, src, src_len))
        return plain_to_srgb(depth, src, src_len, dst, dst_len, place, clipped);
    size_t bulk = src_len / 96 * 96, count = 0;
    const __m128i shift = _mm_cvtsi32_si128((int)depth - 9);
    /* Half a step below the offset. Packing clips what is above 255. */
    const __m128i low = words((3u << (depth - 3)) - (1u << (depth - 10)));
    const __m128i black = words((3u << (depth - 3)) + 32768), white = words((255u << (depth - 9)) + 32768);
    for (size_t i = 0; i < bulk; i += 96)
        count += sixteen_to_srgb(src + i, dst + i / 2, shift, low, black, white);
    plain_to_srgb(depth, src + bulk, src_len - bulk, dst + bulk / 2, dst_len - bulk / 2, place, clipped);
    *clipped += count;
    return (int64_t)(src_len / 6);
}

int64_t sse2_change_depth(uint32_t from, uint32_t to, const uint8_t *src, size_t src_len,
                          uint8_t *dst, size_t dst_len, size_t *place)
{
    if (!offered(from) || !offered(to) || src_len % 6 != 0 || dst_len != src_len
        || !codes_sound(from, src, src_len))
        return plain_change_depth(from, to, src, src_len, dst, dst_len, place);
    size_t bulk = src_len / 48 * 48;
    if (to >= from) {
        const __m128i shift = _mm_cvtsi32_si128((int)(to - from));
        for (size_t i = 0; i < bulk; i += 16)
            store(dst + i, _mm_sll_epi16(load(src + i), shift));
    } else {
        const __m128i shift = _mm_cvtsi32_si128((int)(from - to));
        /* Lifted, so that the sum saturates where a quotient would be above the greatest code. */
        const uint32_t above = 65536 - (1u << from);
        const __m128i lift = words(above + (1u << (from - to - 1))), base = words(above >> (from - to));
        for (size_t i = 0; i < bulk; i += 16) {
            __m128i x = _mm_srl_epi16(_mm_adds_epu16(load(src + i), lift), shift);
            store(dst + i, _mm_sub_epi16(x, base));
        }
    }
    plain_change_depth(from, to, src + bulk, src_len - bulk, dst + bulk, dst_len - bulk, place);
    return (int64_t)(src_len / 6);
}

/* ---- pixel by pixel: four at a time, with two bytes of the fifth, and plain C takes the last one to four */

static size_t bulk_of(size_t src_len)
{
    return src_len < 6 ? 0 : (src_len - 6) / 24 * 24;
}

/* Four pixels in 32-bit lanes: their first two samples, and the third below the next pixel's first. */
struct pixels {
    __m128i pairs, thirds;
};

static struct pixels load_pixels(const uint8_t *at)
{
    __m128i a = _mm_unpacklo_epi64(_mm_loadl_epi64((const __m128i *)at),
                                   _mm_loadl_epi64((const __m128i *)(at + 6)));
    __m128i b = _mm_unpacklo_epi64(_mm_loadl_epi64((const __m128i *)(at + 12)),
                                   _mm_loadl_epi64((const __m128i *)(at + 18)));
    __m128 low = _mm_castsi128_ps(a), high = _mm_castsi128_ps(b);
    struct pixels p = {_mm_castps_si128(_mm_shuffle_ps(low, high, _MM_SHUFFLE(2, 0, 2, 0))),
                       _mm_castps_si128(_mm_shuffle_ps(low, high, _MM_SHUFFLE(3, 1, 3, 1)))};
    return p;
}

static void store_pixels(uint8_t *at, struct pixels p)
{
    __m128i a = _mm_unpacklo_epi32(p.pairs, p.thirds), b = _mm_unpackhi_epi32(p.pairs, p.thirds);
    _mm_storel_epi64((__m128i *)at, a);
    _mm_storel_epi64((__m128i *)(at + 6), _mm_srli_si128(a, 8));
    _mm_storel_epi64((__m128i *)(at + 12), b);
    _mm_storel_epi64((__m128i *)(at + 18), _mm_srli_si128(b, 8));
}

/* The samples times three weights, summed. */
static __m128i weighted(struct pixels p, int32_t first, int32_t second, int32_t third)
{
    return _mm_add_epi32(_mm_madd_epi16(p.pairs, pair(first, second)),
                         _mm_madd_epi16(p.thirds, pair(third, 0)));
}

/* Numbers below 2^27 over a number from 1000 to 2000, rounded down: times 2^41 / den, rounded up. */
static inline __m128i over(__m128i x, uint32_t den)
{
    const __m128i factor = longs((uint32_t)((1ull << 41) / den + 1));
    __m128i even = _mm_srli_epi64(_mm_mul_epu32(x, factor), 41);
    __m128i odd = _mm_srli_epi64(_mm_mul_epu32(_mm_srli_epi64(x, 32), factor), 41);
    return _mm_or_si128(even, _mm_slli_epi64(odd, 32));
}

/* Numbers over den to the nearest, ties towards zero, plus 32768. */
static inline __m128i biased_quotient(__m128i x, uint32_t den)
{
    __m128i negative = _mm_srli_epi32(x, 31);
    return over(_mm_add_epi32(_mm_add_epi32(x, longs(32768 * den + den / 2 - 1)), negative), den);
}

int64_t sse2_to_luma_chroma(uint32_t depth, const uint8_t *src, size_t src_len, uint8_t *dst,
                            size_t dst_len, size_t *place)
{
    if (!offered(depth) || src_len % 6 != 0 || dst_len != src_len
        || !codes_sound(depth, src, src_len))
        return plain_to_luma_chroma(depth, src, src_len, dst, dst_len, place);
    size_t bulk = bulk_of(src_len);
    /* Products are of signed numbers: codes stand 32768 too low, and so does luma until it is rounded. */
    const __m128i sign = words(32768), half = longs(32768000 + 500);
    const int32_t low = 32768 - (1 << (depth - 1));
    for (size_t i = 0; i < bulk; i += 24) {
        struct pixels p = load_pixels(src + i);
        p.pairs = _mm_xor_si128(p.pairs, sign);
        p.thirds = _mm_xor_si128(p.thirds, sign);
        __m128i y = over(_mm_add_epi32(weighted(p, 299, 587, 114), half), 1000);
        __m128i cb = biased_quotient(weighted(p, -299, -587, 886), 1772);
        __m128i cr = biased_quotient(weighted(p, 701, -587, -114), 1402);
        struct pixels q = {_mm_sub_epi16(_mm_or_si128(y, _mm_slli_epi32(cb, 16)), pair(0, low)),
                           _mm_sub_epi16(cr, pair(low, 0))};
        store_pixels(dst + i, q);
    }
    plain_to_luma_chroma(depth, src + bulk, src_len - bulk, dst + bulk, dst_len - bulk, place);
    return (int64_t)(src_len / 6);
}

/*
 * 65536 less (101004 cb + 209599 cr) / 293500, rounded to the nearest, ties upward, where cb and cr are counted
 * from the middle. Quotients are at least 1 / 293500 from each other, so that a little less than that may be
 * added. Up to 12 bits a share with 32 bits behind the point is exact enough.
 */
static inline __m128i green_to_twelve(__m128i cb, __m128i cr, uint32_t middle)
{
    const uint32_t of_cb = 1478054095, of_cr = 3067191994;
    const __m128i high = _mm_set1_epi64x((65536ll << 32) + (1ll << 31) + 6000
                                         + (long long)middle * ((long long)of_cb + of_cr));
    const __m128i a = longs(of_cb), b = longs(of_cr);
    __m128i even = _mm_add_epi64(_mm_mul_epu32(cb, a), _mm_mul_epu32(cr, b));
    __m128i odd = _mm_add_epi64(_mm_mul_epu32(_mm_srli_epi64(cb, 32), a),
                                _mm_mul_epu32(_mm_srli_epi64(cr, 32), b));
    even = _mm_srli_epi64(_mm_sub_epi64(high, even), 32);
    odd = _mm_and_si128(_mm_sub_epi64(high, odd), _mm_set_epi32(-1, 0, -1, 0));
    return _mm_or_si128(even, odd);
}

/* At 16 bits it takes the 53 bits of a double. */
static inline __m128i green_at_sixteen(__m128i cb, __m128i cr, uint32_t middle)
{
    const double of_cb = 101004.0 / 293500, of_cr = 209599.0 / 293500;
    const __m128d high = _mm_set1_pd(65536.5 + 1e-6 + middle * (of_cb + of_cr));
    const __m128d a = _mm_set1_pd(of_cb), b = _mm_set1_pd(of_cr);
    __m128i cb2 = _mm_srli_si128(cb, 8), cr2 = _mm_srli_si128(cr, 8);
    __m128d left = _mm_add_pd(_mm_mul_pd(_mm_cvtepi32_pd(cb), a), _mm_mul_pd(_mm_cvtepi32_pd(cr), b));
    __m128d right = _mm_add_pd(_mm_mul_pd(_mm_cvtepi32_pd(cb2), a), _mm_mul_pd(_mm_cvtepi32_pd(cr2), b));
    return _mm_unpacklo_epi64(_mm_cvttpd_epi32(_mm_sub_pd(high, left)),
                              _mm_cvttpd_epi32(_mm_sub_pd(high, right)));
}

/*
 * Writes `bulk` bytes of pixels. Packing clips to signed numbers: so codes stand 32768 too low, while what is
 * added to luma stands 65536 too high.
 */
static inline void back(__m128i green_part(__m128i, __m128i, uint32_t), uint32_t depth,
                        const uint8_t *src, uint8_t *dst, size_t bulk)
{
    const uint32_t middle = 1u << (depth - 1);
    const __m128i sign = words(32768), greatest = words(2 * middle - 1 - 32768);
    const __m128i low = longs(65536 + 32768), samples = longs(65535);
    const __m128i bias = longs(65536000 + 500);
    for (size_t i = 0; i < bulk; i += 24) {
        struct pixels p = load_pixels(src + i);
        __m128i y = _mm_sub_epi32(_mm_and_si128(p.pairs, samples), low);
        __m128i cb = _mm_madd_epi16(_mm_sub_epi16(p.pairs, pair(0, (int32_t)middle)), pair(0, 1772));
        __m128i cr = _mm_madd_epi16(_mm_sub_epi16(p.thirds, pair((int32_t)middle, 0)), pair(1402, 0));
        __m128i blue = over(_mm_add_epi32(cb, bias), 1000), red = over(_mm_add_epi32(cr, bias), 1000);
        __m128i green = green_part(_mm_srli_epi32(p.pairs, 16), _mm_and_si128(p.thirds, samples), middle);
        __m128i rb = _mm_packs_epi32(_mm_add_epi32(y, red), _mm_add_epi32(y, blue));
        __m128i gg = _mm_packs_epi32(_mm_add_epi32(y, green), y);
        rb = _mm_xor_si128(_mm_min_epi16(rb, greatest), sign);
        gg = _mm_xor_si128(_mm_min_epi16(gg, greatest), sign);
        struct pixels q = {_mm_unpacklo_epi16(rb, gg), _mm_unpackhi_epi16(rb, gg)};
        store_pixels(dst + i, q);
    }
}

int64_t sse2_from_luma_chroma(uint32_t depth, const uint8_t *src, size_t src_len, uint8_t *dst,
                              size_t dst_len, size_t *place)
{
    if (!offered(depth) || src_len % 6 != 0 || dst_len != src_len || !ycc_sound(depth, src, src_len))
        return plain_from_luma_chroma(depth, src, src_len, dst, dst_len, place);
    size_t bulk = bulk_of(src_len);
    if (depth == 16)
        back(green_at_sixteen, depth, src, dst, bulk);
    else
        back(green_to_twelve, depth, src, dst, bulk);
    plain_from_luma_chroma(depth, src + bulk, src_len - bulk, dst + bulk, dst_len - bulk, place);
    return (int64_t)(src_len / 6);
}
