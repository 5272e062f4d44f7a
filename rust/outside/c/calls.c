/*
 * Every function of kiosk.h, called from C: that the header's declarations fit the library, and that each
 * answers as the examples of docs/RULES.md say. Prints the number of checks.
 */
#include "kiosk.h"

#include <float.h>
#include <math.h>
#include <stdio.h>
#include <string.h>

static int checks, failures;

static void check(int holds, const char *what)
{
    checks++;
    if (!holds) {
        failures++;
        fprintf(stderr, "not so: %s\n", what);
    }
}

#define CHECK(fact) check((fact), #fact)

static uint16_t code_at(const uint8_t *bytes, size_t k)
{
    return (uint16_t)(bytes[2 * k] | bytes[2 * k + 1] << 8);
}

static void put_code(uint8_t *bytes, size_t k, unsigned code)
{
    bytes[2 * k] = (uint8_t)code;
    bytes[2 * k + 1] = (uint8_t)(code >> 8);
}

static void pictures(void)
{
    const uint8_t srgb[6] = {0, 128, 255, 255, 0, 0};
    uint8_t codes[12], wide[12], ycc[12], back[12], eight[6];
    size_t place = 77, again_place = 78, clipped = 79;
    int64_t again = 0;

    CHECK(kiosk_from_srgb(10, srgb, sizeof srgb, codes, sizeof codes, &place) == 2);
    CHECK(code_at(codes, 0) == 384 && code_at(codes, 1) == 640 && code_at(codes, 2) == 894);
    CHECK(kiosk_change_depth(10, 12, codes, sizeof codes, wide, sizeof wide, &place) == 2);
    CHECK(code_at(wide, 0) == 1536 && code_at(wide, 1) == 2560 && code_at(wide, 2) == 3576);
    put_code(wide, 0, 1538);
    put_code(wide, 1, 1539);
    put_code(wide, 2, 4095);
    CHECK(kiosk_change_depth(12, 10, wide, sizeof wide, back, sizeof back, &place) == 2);
    CHECK(code_at(back, 0) == 385 && code_at(back, 1) == 385 && code_at(back, 2) == 1023);
    CHECK(kiosk_to_luma_chroma(10, codes, sizeof codes, ycc, sizeof ycc, &place) == 2);
    CHECK(code_at(ycc, 3) == 536 && code_at(ycc, 4) == 426 && code_at(ycc, 5) == 767);
    CHECK(kiosk_from_luma_chroma(10, ycc, sizeof ycc, back, sizeof back, &place) == 2);
    CHECK(code_at(back, 3) == 894 && code_at(back, 4) == 383 && code_at(back, 5) == 384);
    CHECK(kiosk_to_srgb(10, codes, sizeof codes, eight, sizeof eight, &place, &clipped) == 2);
    CHECK(memcmp(eight, srgb, sizeof srgb) == 0);
    CHECK(place == 77 && clipped == 0);

    memset(ycc, 1, sizeof ycc);
    memset(back, 2, sizeof back);
    CHECK(kiosk_round_trip(10, codes, sizeof codes, ycc, sizeof ycc, back, sizeof back, &place, &again,
                           &again_place) == 2);
    CHECK(again == 2 && place == 77 && again_place == 78);
    CHECK(code_at(ycc, 3) == 536 && code_at(back, 4) == 383);

    memcpy(back, codes, sizeof codes);
    CHECK(kiosk_from_srgb(11, srgb, sizeof srgb, back, sizeof back, &place) == -KIOSK_DEPTH_NOT_OFFERED);
    CHECK(kiosk_from_srgb(10, srgb, 5, back, sizeof back, &place) == -KIOSK_NOT_WHOLE_PIXELS);
    CHECK(kiosk_from_srgb(10, srgb, sizeof srgb, back, 11, &place) == -KIOSK_WRONG_DESTINATION_LENGTH);
    CHECK(place == 77);
    put_code(codes, 4, 1024);
    CHECK(kiosk_to_luma_chroma(10, codes, sizeof codes, back, sizeof back, &place) == -KIOSK_SAMPLE_TOO_GREAT);
    CHECK(place == 8);
    put_code(ycc, 1, 0);
    CHECK(kiosk_from_luma_chroma(10, ycc, sizeof ycc, back, sizeof back, &place) == -KIOSK_CHROMA_ZERO);
    CHECK(place == 2);
    CHECK(code_at(back, 1) == 640 && code_at(back, 3) == 894);
}

/* A picture of the depth's black, but for one sample: how many of its pixels are clipped. */
static size_t clipped_of(uint32_t depth, size_t k, unsigned code)
{
    uint8_t codes[6 * 33], eight[3 * 33];
    size_t place = 77, clipped = 79;

    for (size_t i = 0; i < 3 * 33; i++)
        put_code(codes, i, 3u << (depth - 3));
    put_code(codes, k, code);
    if (kiosk_to_srgb(depth, codes, sizeof codes, eight, sizeof eight, &place, &clipped) != 33 || place != 77)
        return 80;
    return clipped;
}

/* Clipped is what lies outside black and white, whatever it is rounded to, and a pixel counts once. */
static void clipped_pixels(void)
{
    static const unsigned ends[3][3] = {{10, 384, 894}, {12, 1536, 3576}, {16, 24576, 57216}};
    const unsigned pixels[9] = {383, 384, 384, 0, 895, 1023, 384, 894, 640};
    const uint8_t narrow[9] = {0, 0, 0, 0, 255, 255, 0, 255, 128};
    uint8_t codes[18], eight[9];
    size_t place = 77, clipped = 79;

    for (size_t k = 0; k < 9; k++)
        put_code(codes, k, pixels[k]);
    CHECK(kiosk_to_srgb(10, codes, sizeof codes, eight, sizeof eight, &place, &clipped) == 3);
    CHECK(clipped == 2 && place == 77 && memcmp(eight, narrow, sizeof narrow) == 0);
    CHECK(kiosk_to_srgb(10, codes, 0, eight, 0, &place, &clipped) == 0);
    CHECK(clipped == 0 && place == 77 && memcmp(eight, narrow, sizeof narrow) == 0);
    for (size_t d = 0; d < 3; d++)
        for (size_t k = 0; k < 3 * 33; k++) {
            CHECK(clipped_of(ends[d][0], k, ends[d][1] - 1) == 1);
            CHECK(clipped_of(ends[d][0], k, ends[d][1]) == 0);
            CHECK(clipped_of(ends[d][0], k, ends[d][2]) == 0);
            CHECK(clipped_of(ends[d][0], k, ends[d][2] + 1) == 1);
        }
}

/* Do bytes that were set to 0x5a before a call still have that value? */
static int untouched(const uint8_t *bytes, size_t length)
{
    for (size_t k = 0; k < length; k++)
        if (bytes[k] != 0x5a)
            return 0;
    return 1;
}

/* Is a conversion to sRGB refused with this number, and leaves it the destination and the count as they were? */
static int to_srgb_refused(int number, uint32_t depth, const uint8_t *codes, size_t codes_len, size_t room,
                           size_t at)
{
    uint8_t eight[3 * 70];
    size_t place = 77, none = 0, some = 79;

    memset(eight, 0x5a, sizeof eight);
    if (kiosk_to_srgb(depth, codes, codes_len, eight, room, &place, &some) != -number || some != 79
        || place != at)
        return 0;
    place = 77;
    if (kiosk_to_srgb(depth, codes, codes_len, eight, room, &place, &none) != -number || none != 0
        || place != at)
        return 0;
    return untouched(eight, sizeof eight);
}

/* All pixels are clipped, so that a count of those before a fault would show. */
static void clipped_refused(void)
{
    static const uint32_t depths[3] = {10, 12, 16}, others[4] = {0, 8, 11, UINT32_MAX};
    uint8_t codes[6 * 70];

    memset(codes, 0, sizeof codes);
    for (size_t k = 0; k < 4; k++) {
        CHECK(to_srgb_refused(KIOSK_DEPTH_NOT_OFFERED, others[k], codes, 6 * 70, 3 * 70, 77));
        CHECK(to_srgb_refused(KIOSK_DEPTH_NOT_OFFERED, others[k], codes, 9, 1, 77));
    }
    for (size_t k = 0; k < 3; k++) {
        CHECK(to_srgb_refused(KIOSK_NOT_WHOLE_SAMPLES, depths[k], codes, 6 * 70 - 1, 3 * 70, 77));
        CHECK(to_srgb_refused(KIOSK_NOT_WHOLE_SAMPLES, depths[k], codes, 9, 1, 77));
        CHECK(to_srgb_refused(KIOSK_NOT_WHOLE_PIXELS, depths[k], codes, 6 * 70 - 2, 3 * 70, 77));
        CHECK(to_srgb_refused(KIOSK_NOT_WHOLE_PIXELS, depths[k], codes, 8, 1, 77));
        CHECK(to_srgb_refused(KIOSK_WRONG_DESTINATION_LENGTH, depths[k], codes, 6 * 70, 3 * 70 - 1, 77));
        CHECK(to_srgb_refused(KIOSK_WRONG_DESTINATION_LENGTH, depths[k], codes, 6, 0, 77));
        CHECK(to_srgb_refused(KIOSK_WRONG_DESTINATION_LENGTH, depths[k], codes, 0, 1, 77));
    }
    for (size_t k = 0; k < 3 * 70; k++) {
        put_code(codes, k, 4096);
        CHECK(to_srgb_refused(KIOSK_SAMPLE_TOO_GREAT, 12, codes, 6 * 70, 3 * 70, 2 * k));
        put_code(codes, k, 1024);
        CHECK(to_srgb_refused(KIOSK_SAMPLE_TOO_GREAT, 10, codes, 6 * 70, 3 * 70, 2 * k));
        put_code(codes, k, 0);
    }
}

/* Does the pixel at sample k hold these three? */
static int pixel_is(const uint8_t *bytes, size_t k, unsigned first, unsigned second, unsigned third)
{
    return code_at(bytes, k) == first && code_at(bytes, k + 1) == second && code_at(bytes, k + 2) == third;
}

/* Red and blue, and the least blue, which gets a chroma of 0. */
static void standard_ycc(void)
{
    const uint8_t srgb[6] = {255, 0, 0, 0, 0, 255}, sycc[6] = {76, 85, 255, 29, 255, 107};
    uint8_t codes[12], ycc[12], back[12], eight[6];
    size_t place = 77;

    CHECK(kiosk_from_srgb(10, srgb, sizeof srgb, codes, sizeof codes, &place) == 2);
    CHECK(kiosk_to_esycc(10, codes, sizeof codes, ycc, sizeof ycc, &place) == 2);
    CHECK(pixel_is(ycc, 0, 306, 426, 768) && pixel_is(ycc, 3, 117, 768, 470));
    CHECK(kiosk_from_esycc(10, ycc, sizeof ycc, back, sizeof back, &place) == 2);
    CHECK(pixel_is(back, 0, 894, 384, 385) && pixel_is(back, 3, 384, 384, 895));
    CHECK(kiosk_to_sycc(10, codes, sizeof codes, eight, sizeof eight, &place) == 2);
    CHECK(memcmp(eight, sycc, sizeof sycc) == 0);
    CHECK(kiosk_from_sycc(10, eight, sizeof eight, back, sizeof back, &place) == 2);
    CHECK(pixel_is(back, 0, 894, 383, 385) && pixel_is(back, 3, 385, 384, 894));
    put_code(codes, 0, 1023);
    put_code(codes, 1, 1023);
    put_code(codes, 2, 0);
    CHECK(kiosk_to_esycc(10, codes, sizeof codes, ycc, sizeof ycc, &place) == 2);
    CHECK(pixel_is(ycc, 0, 1023, 0, 595));
    CHECK(kiosk_from_esycc(10, ycc, sizeof ycc, back, sizeof back, &place) == 2);
    CHECK(place == 77);
}

static void standard_ycc_refused(void)
{
    const uint8_t sycc[6] = {255, 255, 255, 255, 255, 255};
    uint8_t wide[12], back[12], eight[6];
    size_t place = 77;

    memset(wide, 3, sizeof wide);
    memset(back, 1, sizeof back);
    memset(eight, 1, sizeof eight);
    CHECK(kiosk_to_esycc(8, wide, 11, back, 1, &place) == -KIOSK_DEPTH_NOT_OFFERED);
    CHECK(kiosk_from_esycc(10, wide, 11, back, 1, &place) == -KIOSK_NOT_WHOLE_SAMPLES);
    CHECK(kiosk_to_sycc(10, wide, 10, eight, 1, &place) == -KIOSK_NOT_WHOLE_PIXELS);
    CHECK(kiosk_to_sycc(10, wide, 12, eight, 5, &place) == -KIOSK_WRONG_DESTINATION_LENGTH);
    CHECK(kiosk_from_sycc(11, sycc, 5, back, 1, &place) == -KIOSK_DEPTH_NOT_OFFERED);
    CHECK(kiosk_from_sycc(10, sycc, 5, back, 1, &place) == -KIOSK_NOT_WHOLE_PIXELS);
    CHECK(kiosk_from_sycc(10, sycc, 6, back, 11, &place) == -KIOSK_WRONG_DESTINATION_LENGTH);
    CHECK(place == 77);
    put_code(wide, 4, 1024);
    CHECK(kiosk_to_esycc(10, wide, sizeof wide, back, sizeof back, &place) == -KIOSK_SAMPLE_TOO_GREAT);
    CHECK(place == 8);
    put_code(wide, 3, 1024);
    CHECK(kiosk_from_esycc(10, wide, sizeof wide, back, sizeof back, &place) == -KIOSK_SAMPLE_TOO_GREAT);
    CHECK(place == 6);
    put_code(wide, 2, 1024);
    CHECK(kiosk_to_sycc(10, wide, sizeof wide, eight, sizeof eight, &place) == -KIOSK_SAMPLE_TOO_GREAT);
    CHECK(place == 4);
    CHECK(pixel_is(back, 0, 257, 257, 257) && pixel_is(back, 3, 257, 257, 257));
    CHECK(eight[0] == 1 && eight[5] == 1);
}

/* A conversion that is refused leaves its destination, and those behind it convert what it held. */
static void round_trip_refused(void)
{
    const unsigned red[3] = {894, 384, 384}, red_ycc[3] = {536, 426, 767};
    uint8_t codes[6], ycc[6], back[6];
    size_t place = 77, again_place = 78;
    int64_t again = 0;

    for (size_t k = 0; k < 3; k++) {
        put_code(codes, k, red[k]);
        put_code(ycc, k, red_ycc[k]);
    }
    put_code(codes, 1, 1024);
    memset(back, 2, sizeof back);
    CHECK(kiosk_round_trip(10, codes, sizeof codes, ycc, sizeof ycc, back, sizeof back, &place, &again,
                           &again_place) == -KIOSK_SAMPLE_TOO_GREAT);
    CHECK(place == 2 && again == 1 && again_place == 78);
    CHECK(code_at(ycc, 0) == 536 && code_at(ycc, 1) == 426 && code_at(ycc, 2) == 767);
    CHECK(code_at(back, 0) == 894 && code_at(back, 1) == 383 && code_at(back, 2) == 384);
}

static void both_runs(void)
{
    const uint8_t blue[3] = {0, 0, 255};
    uint8_t codes[6], ycc[6], back[6], direct[3], around[3];
    int64_t answers[5] = {70, 71, 72, 73, 74};
    size_t places[5] = {80, 81, 82, 83, 84}, clipped[2] = {90, 91};

    kiosk_both_runs(10, blue, sizeof blue, codes, sizeof codes, ycc, sizeof ycc, back, sizeof back, direct,
                    sizeof direct, around, sizeof around, answers, places, clipped);
    for (size_t k = 0; k < 5; k++)
        CHECK(answers[k] == 1 && places[k] == 80 + k);
    CHECK(clipped[0] == 0 && clipped[1] == 0);
    CHECK(code_at(codes, 0) == 384 && code_at(codes, 1) == 384 && code_at(codes, 2) == 894);
    CHECK(code_at(back, 0) == 385 && code_at(back, 1) == 384 && code_at(back, 2) == 894);
    CHECK(memcmp(direct, blue, sizeof blue) == 0);
    CHECK(around[0] == 1 && around[1] == 0 && around[2] == 255);

    /* The first is refused, for its source is no whole pixel: the codes stay, and one of them is too great
     * for the second and the fourth. The third takes the luma and chroma of before, and the fifth what it
     * gives. */
    put_code(codes, 2, 1024);
    memset(back, 2, sizeof back);
    memset(direct, 3, sizeof direct);
    memset(around, 4, sizeof around);
    clipped[0] = 90;
    clipped[1] = 91;
    kiosk_both_runs(10, blue, 2, codes, sizeof codes, ycc, sizeof ycc, back, sizeof back, direct, sizeof direct,
                    around, sizeof around, answers, places, clipped);
    CHECK(clipped[0] == 90 && clipped[1] == 0);
    CHECK(answers[0] == -KIOSK_NOT_WHOLE_PIXELS && places[0] == 80);
    CHECK(answers[1] == -KIOSK_SAMPLE_TOO_GREAT && places[1] == 4);
    CHECK(answers[2] == 1 && places[2] == 82);
    CHECK(answers[3] == -KIOSK_SAMPLE_TOO_GREAT && places[3] == 4);
    CHECK(answers[4] == 1 && places[4] == 84);
    CHECK(code_at(codes, 0) == 384 && code_at(codes, 1) == 384 && code_at(codes, 2) == 1024);
    CHECK(code_at(back, 0) == 385 && code_at(back, 1) == 384 && code_at(back, 2) == 894);
    CHECK(direct[0] == 3 && direct[1] == 3 && direct[2] == 3);
    CHECK(around[0] == 1 && around[1] == 0 && around[2] == 255);
}

/* Red, of which one channel comes back below black: only the last conversion clips it. Then that one has no room,
 * and the one before takes codes that were there, of which two pixels are clipped. */
static void both_runs_clipped(void)
{
    const uint8_t red[6] = {255, 0, 0, 255, 0, 0};
    uint8_t codes[12], ycc[12], back[12], direct[6], around[6];
    int64_t answers[5];
    size_t places[5], clipped[2] = {90, 91};

    kiosk_both_runs(10, red, sizeof red, codes, sizeof codes, ycc, sizeof ycc, back, sizeof back, direct,
                    sizeof direct, around, sizeof around, answers, places, clipped);
    CHECK(code_at(back, 4) == 383 && clipped[0] == 0 && clipped[1] == 2);
    for (size_t k = 0; k < 6; k++)
        put_code(codes, k, 1023);
    clipped[1] = 91;
    kiosk_both_runs(10, red, 5, codes, sizeof codes, ycc, sizeof ycc, back, sizeof back, direct,
                    sizeof direct, around, 5, answers, places, clipped);
    CHECK(answers[3] == 2 && clipped[0] == 2);
    CHECK(answers[4] == -KIOSK_WRONG_DESTINATION_LENGTH && clipped[1] == 91);
}

static void put_six(uint8_t codes[12], const unsigned values[6])
{
    for (size_t k = 0; k < 6; k++)
        put_code(codes, k, values[k]);
}

static void light(void)
{
    uint8_t codes[12], again[12];
    int32_t numbers[6];
    size_t place = 77;
    const unsigned values[6] = {1537, 1535, 1618, 3576, 1536, 4095};

    put_six(codes, values);
    CHECK(kiosk_code_to_light(12, codes, sizeof codes, numbers, 6, &place) == 2);
    CHECK(numbers[0] == 38 && numbers[1] == -38 && numbers[2] == 3111 && numbers[3] == 1000000 && numbers[4] == 0);
    CHECK(kiosk_light_to_code(12, numbers, 6, again, sizeof again) == 2);
    CHECK(memcmp(codes, again, sizeof codes) == 0);
    numbers[0] = 3130;
    numbers[1] = 3131;
    numbers[2] = INT32_MIN;
    numbers[3] = INT32_MAX;
    CHECK(kiosk_light_to_code(12, numbers, 6, again, sizeof again) == 2);
    CHECK(code_at(again, 0) == 1618 && code_at(again, 1) == 1619);
    CHECK(code_at(again, 2) == 0 && code_at(again, 3) == 4095);
    CHECK(kiosk_code_to_light(14, codes, sizeof codes, numbers, 6, &place) == -KIOSK_DEPTH_NOT_OFFERED);
    CHECK(kiosk_light_to_code(16, numbers, 6, again, sizeof again) == -KIOSK_DEPTH_NOT_OFFERED);
    CHECK(kiosk_code_to_light(12, codes, 11, numbers, 6, &place) == -KIOSK_NOT_WHOLE_SAMPLES);
    CHECK(kiosk_code_to_light(12, codes, 10, numbers, 5, &place) == -KIOSK_NOT_WHOLE_PIXELS);
    CHECK(kiosk_light_to_code(12, numbers, 5, again, 10) == -KIOSK_NOT_WHOLE_PIXELS);
    CHECK(kiosk_light_to_code(12, numbers, 4, again, 8) == -KIOSK_NOT_WHOLE_PIXELS);
    CHECK(kiosk_light_to_code(12, numbers, 6, again, 11) == -KIOSK_WRONG_DESTINATION_LENGTH);
    CHECK(place == 77);
    put_code(codes, 5, 4096);
    CHECK(kiosk_code_to_light(12, codes, sizeof codes, numbers, 6, &place) == -KIOSK_SAMPLE_TOO_GREAT);
    CHECK(place == 10);
}

/* 16 bits: a level of 12 bits, a tie on the line on both sides of black, and the ends. No code is too great. */
static void light_at_sixteen(void)
{
    uint8_t codes[12];
    int32_t numbers[6];
    size_t place = 77;
    const unsigned values[6] = {24592, 24580, 24572, 57216, 65535, 0};

    put_six(codes, values);
    CHECK(kiosk_code_to_light(16, codes, sizeof codes, numbers, 6, &place) == 2);
    CHECK(numbers[0] == 38 && numbers[1] == 10 && numbers[2] == -10 && numbers[3] == 1000000);
    CHECK(numbers[4] == 1680904 && numbers[5] == -527115);
    numbers[5] = 7;
    CHECK(kiosk_code_to_light(16, codes, 11, numbers, 6, &place) == -KIOSK_NOT_WHOLE_SAMPLES);
    CHECK(kiosk_code_to_light(16, codes, 10, numbers, 5, &place) == -KIOSK_NOT_WHOLE_PIXELS);
    CHECK(kiosk_code_to_light(16, codes, sizeof codes, numbers, 5, &place) == -KIOSK_WRONG_DESTINATION_LENGTH);
    CHECK(numbers[0] == 38 && numbers[5] == 7 && place == 77);
}

/* Codes through light that is moved: by as much as they keep, by one millionth more, and beyond 32 bits. */
static void moved_light(void)
{
    uint8_t codes[12], back[12];
    int32_t moves[6], numbers[6];
    size_t place = 77;
    const unsigned values[6] = {1536, 1537, 1535, 3576, 0, 4095};

    put_six(codes, values);
    for (size_t k = 0; k < 6; k++)
        moves[k] = k % 2 ? -KIOSK_STEADY_AT_12_BITS : KIOSK_STEADY_AT_12_BITS;
    CHECK(kiosk_through_light(12, codes, sizeof codes, moves, 6, numbers, 6, back, sizeof back, &place) == 2);
    CHECK(memcmp(codes, back, sizeof codes) == 0 && place == 77);
    CHECK(numbers[0] == 18 && numbers[1] == 20 && numbers[2] == -20 && numbers[3] == 999982);
    moves[0] = moves[1] = 19;
    moves[2] = -19;
    moves[3] = INT32_MAX;
    moves[4] = INT32_MIN;
    CHECK(kiosk_through_light(12, codes, sizeof codes, moves, 6, numbers, 6, back, sizeof back, &place) == 2);
    CHECK(code_at(back, 0) == 1537 && code_at(back, 1) == 1538 && code_at(back, 2) == 1534);
    CHECK(code_at(back, 3) == 4095 && code_at(back, 4) == 0);
    CHECK(numbers[2] == -57 && numbers[3] == INT32_MAX && numbers[4] == INT32_MIN);
}

/* Is codes through moved light refused with this number, with this place and nothing else written? */
static int moved_light_refused(int number, uint32_t depth, const uint8_t *codes, size_t codes_len, size_t moves_len,
                               size_t light_len, size_t back_len, size_t place)
{
    const int32_t moves[7] = {0};
    int32_t light[7];
    uint8_t back[13];
    size_t found = 77;

    memset(light, 0x5a, sizeof light);
    memset(back, 0x5a, sizeof back);
    if (kiosk_through_light(depth, codes, codes_len, moves, moves_len, light, light_len, back, back_len, &found) != -number)
        return 0;
    for (size_t k = 0; k < sizeof back; k++)
        if (back[k] != 0x5a)
            return 0;
    for (size_t k = 0; k < 7; k++)
        if (light[k] != 0x5a5a5a5a)
            return 0;
    return found == place;
}

static void moved_light_not_taken(void)
{
    uint8_t codes[13] = {0};

    CHECK(moved_light_refused(KIOSK_DEPTH_NOT_OFFERED, 16, codes, 11, 6, 6, 12, 77));
    CHECK(moved_light_refused(KIOSK_NOT_WHOLE_SAMPLES, 10, codes, 11, 6, 6, 12, 77));
    CHECK(moved_light_refused(KIOSK_NOT_WHOLE_PIXELS, 10, codes, 10, 6, 6, 12, 77));
    put_code(codes, 5, 1024);
    CHECK(moved_light_refused(KIOSK_WRONG_DESTINATION_LENGTH, 10, codes, 12, 6, 5, 12, 77));
    CHECK(moved_light_refused(KIOSK_WRONG_DESTINATION_LENGTH, 10, codes, 12, 7, 6, 12, 77));
    CHECK(moved_light_refused(KIOSK_WRONG_DESTINATION_LENGTH, 10, codes, 12, 5, 6, 12, 77));
    CHECK(moved_light_refused(KIOSK_WRONG_DESTINATION_LENGTH, 10, codes, 12, 6, 6, 13, 77));
    CHECK(moved_light_refused(KIOSK_SAMPLE_TOO_GREAT, 10, codes, 12, 6, 6, 12, 10));
}

/* Does a pixel hold these three codes? */
static int holds(const uint16_t pixel[3], unsigned red, unsigned green, unsigned blue)
{
    return pixel[0] == red && pixel[1] == green && pixel[2] == blue;
}

/* Does either tint of doubles refuse these channels at this one, and leave the pixel as it was? */
static int refuses_at(size_t channel, double red, double green, double blue)
{
    uint16_t pixel[3] = {1, 2, 3};
    size_t place = 77, light_place = 78;

    return kiosk_tint_nonlinear(red, green, blue, pixel, &place) == -KIOSK_NOT_FINITE && place == channel &&
           kiosk_tint_light(red, green, blue, pixel, &light_place) == -KIOSK_NOT_FINITE &&
           light_place == channel && holds(pixel, 1, 2, 3);
}

static void tints(void)
{
    /* A pixel between two numbers that nobody may touch. */
    uint16_t room[5] = {7, 0, 0, 0, 7}, *pixel = room + 1;
    size_t place = 77;

    kiosk_tint_code(0, 128, 255, pixel);
    CHECK(holds(pixel, 1536, 2560, 3576));
    CHECK(kiosk_tint_nonlinear(0.0, 1.0, 1.25, pixel, &place) == 1);
    CHECK(holds(pixel, 1536, 3576, 4086));
    CHECK(kiosk_tint_nonlinear(-3059.0 / 4080, 1.0 / 4080, -0.0, pixel, &place) == 1);
    CHECK(holds(pixel, 7, 1537, 1536));
    CHECK(kiosk_tint_nonlinear(DBL_MAX, -DBL_MAX, DBL_MIN, pixel, &place) == 1);
    CHECK(holds(pixel, 4095, 0, 1536));
    CHECK(kiosk_tint_light(0.00313, 0.003131, 0.0, pixel, &place) == 1);
    CHECK(holds(pixel, 1618, 1619, 1536));
    CHECK(kiosk_tint_light(1.0, -DBL_MAX, DBL_MAX, pixel, &place) == 1);
    CHECK(holds(pixel, 3576, 0, 4095));
    CHECK(place == 77 && room[0] == 7 && room[4] == 7);
    CHECK(refuses_at(0, (double)INFINITY, 0.0, 0.0) && refuses_at(0, (double)NAN, (double)NAN, 0.0));
    CHECK(refuses_at(1, 0.0, (double)-INFINITY, (double)NAN) && refuses_at(1, DBL_MAX, (double)NAN, 0.0));
    CHECK(refuses_at(2, -0.0, DBL_MAX, (double)INFINITY) && refuses_at(2, 1.0, 1.0, (double)NAN));
}

/* What a call of stickers may write, each between bytes or numbers that nobody may touch. */
struct sticker_room {
    uint8_t dst[1 + 600 + 1], four[1 + 4 + 1];
    uint32_t sums[1 + 2 + 1];
    size_t place[1 + 1 + 1];
};

static void fill_room(struct sticker_room *room)
{
    memset(room, 0x5a, sizeof *room);
}

static int64_t stickers_in(struct sticker_room *room, const uint8_t *src, size_t src_len, const uint16_t *tints,
                           size_t budget, size_t dst_len)
{
    return kiosk_stickers(src, src_len, tints, budget, room->dst + 1, dst_len, room->four + 1, room->sums + 1,
                          room->place + 1);
}

/* Are the four tints, their sum and that with all tints these, and is everything around what was written, and the
 * place, as it was? */
static int sticks(const struct sticker_room *room, size_t pixels, const uint8_t four[4], uint32_t sum, uint32_t all)
{
    struct sticker_room like;

    fill_room(&like);
    memcpy(like.dst + 1, room->dst + 1, pixels);
    memcpy(like.four + 1, four, 4);
    like.sums[1] = sum;
    like.sums[2] = all;
    return memcmp(room->dst, like.dst, sizeof like.dst) == 0 && memcmp(room->four, like.four, sizeof like.four) == 0
           && memcmp(room->sums, like.sums, sizeof like.sums) == 0
           && memcmp(room->place, like.place, sizeof like.place) == 0;
}

/* White tints, but for two: tint 5 is (10, 0, 0), and tint 9 is (0, 20, 0). */
static void put_tints(uint16_t tints[KIOSK_TINT_CODES])
{
    for (size_t k = 0; k < KIOSK_TINT_CODES; k++)
        tints[k] = 4095;
    memset(tints + 3 * 5, 0, 3 * sizeof *tints);
    memset(tints + 3 * 9, 0, 3 * sizeof *tints);
    tints[3 * 5] = 10;
    tints[3 * 9 + 1] = 20;
}

/* The pixels (10, 0, 0), (0, 20, 0) and black. With tints 5 and 9 their distances are 0, 0 and 10; with 5 alone 0, 30
 * and 10; and with white 12,275, 12,265 and 12,285. The 40th choice is the first with both. */
static void stickers(void)
{
    static const uint8_t first[4] = {0, 1, 2, 3}, third[4] = {0, 1, 2, 5}, best[4] = {0, 1, 5, 9};
    uint16_t tints[KIOSK_TINT_CODES];
    uint8_t src[18] = {0};
    struct sticker_room room;

    put_tints(tints);
    put_code(src, 0, 10);
    put_code(src, 4, 20);
    fill_room(&room);
    CHECK(stickers_in(&room, src, sizeof src, tints, 1, 3) == 1);
    CHECK(sticks(&room, 3, first, 36825, 10) && room.dst[1] == 0 && room.dst[2] == 0 && room.dst[3] == 0);
    fill_room(&room);
    CHECK(stickers_in(&room, src, sizeof src, tints, 39, 3) == 39);
    CHECK(sticks(&room, 3, third, 40, 10) && room.dst[1] == 5 && room.dst[2] == 5 && room.dst[3] == 5);
    for (size_t budget = 40; budget < 2000; budget += 89) {
        fill_room(&room);
        CHECK(stickers_in(&room, src, sizeof src, tints, budget, 3) == (int64_t)(budget < 1820 ? budget : 1820));
        CHECK(sticks(&room, 3, best, 10, 10) && room.dst[1] == 5 && room.dst[2] == 9 && room.dst[3] == 5);
    }
    fill_room(&room);
    CHECK(stickers_in(&room, src, sizeof src, tints, SIZE_MAX, 3) == 1820);
    CHECK(sticks(&room, 3, best, 10, 10));
    fill_room(&room);
    CHECK(stickers_in(&room, src, 0, tints, 7, 0) == 7);
    CHECK(sticks(&room, 0, first, 0, 0));
}

/* Ties: the lumas of tints 0 to 3 are 0.228, which is rounded, 0, 10 and 4.56. The pixels are 1 away from tints 0 and
 * 1, 25 away from 2 and 3, and tint 2 itself. */
static void stickers_with_ties(void)
{
    static const uint16_t codes[12] = {0, 0, 2, 0, 0, 0, 10, 10, 10, 0, 0, 40};
    static const uint16_t pixels[9] = {0, 0, 1, 5, 5, 25, 10, 10, 10};
    static const uint8_t four[4] = {0, 1, 2, 3};
    uint16_t tints[KIOSK_TINT_CODES];
    uint8_t src[18];
    struct sticker_room room;

    for (size_t k = 12; k < KIOSK_TINT_CODES; k++)
        tints[k] = 4095;
    memcpy(tints, codes, sizeof codes);
    for (size_t k = 0; k < 9; k++)
        put_code(src, k, pixels[k]);
    fill_room(&room);
    CHECK(stickers_in(&room, src, sizeof src, tints, 1, 3) == 1);
    CHECK(sticks(&room, 3, four, 26, 26) && room.dst[1] == 0 && room.dst[2] == 3 && room.dst[3] == 2);
}

/* More pixels than the library takes at a time, all black: to tints 5 and 9 they have distances of 10 and 20. */
static void stickers_of_many_pixels(void)
{
    static const uint8_t four[4] = {0, 1, 2, 5};
    static const size_t counts[6] = {1, 255, 256, 257, 513, 600};
    static uint8_t src[6 * 600];
    uint16_t tints[KIOSK_TINT_CODES];
    struct sticker_room room;

    put_tints(tints);
    for (size_t k = 0; k < 6; k++) {
        uint32_t sum = (uint32_t)(10 * counts[k]);

        fill_room(&room);
        CHECK(stickers_in(&room, src, 6 * counts[k], tints, 1820, counts[k]) == 1820);
        CHECK(sticks(&room, counts[k], four, sum, sum));
        for (size_t p = 0; p < counts[k]; p++)
            CHECK(room.dst[1 + p] == 5);
    }
}

/* Are stickers refused with this number at this place, where there is one, and is all else as it was? */
static int stickers_refused_with(int number, size_t at, const uint8_t *src, size_t src_len, const uint16_t *tints,
                                 size_t budget, size_t dst_len)
{
    struct sticker_room room, like;

    fill_room(&room);
    fill_room(&like);
    if (at != SIZE_MAX)
        like.place[1] = at;
    return stickers_in(&room, src, src_len, tints, budget, dst_len) == -number
           && memcmp(&room, &like, sizeof like) == 0;
}

/* Each refusal in a call that deserves those behind it too. */
static void stickers_refused(void)
{
    static uint8_t many[6 * 65537], dst[65537];
    const size_t none = SIZE_MAX;
    uint16_t tints[KIOSK_TINT_CODES];
    uint8_t src[12] = {0}, four[4] = {1, 1, 1, 1};
    uint32_t sums[2] = {1, 1};
    size_t place = 77;

    put_tints(tints);
    tints[47] = 4096;
    put_code(src, 5, 4096);
    CHECK(stickers_refused_with(KIOSK_NOT_WHOLE_SAMPLES, none, src, 11, tints, 0, 7));
    CHECK(stickers_refused_with(KIOSK_NOT_WHOLE_PIXELS, none, src, 10, tints, 0, 7));
    CHECK(stickers_refused_with(KIOSK_WRONG_DESTINATION_LENGTH, none, src, 12, tints, 0, 1));
    CHECK(stickers_refused_with(KIOSK_WRONG_DESTINATION_LENGTH, none, src, 12, tints, 0, 3));
    CHECK(stickers_refused_with(KIOSK_WRONG_DESTINATION_LENGTH, none, src, 0, tints, 0, 1));
    CHECK(stickers_refused_with(KIOSK_SAMPLE_TOO_GREAT, 10, src, 12, tints, 0, 2));
    put_code(src, 5, 4095);
    CHECK(stickers_refused_with(KIOSK_SAMPLE_TOO_GREAT, 12 + 47, src, 12, tints, 0, 2));
    tints[4] = 65535;
    CHECK(stickers_refused_with(KIOSK_SAMPLE_TOO_GREAT, 12 + 4, src, 12, tints, 1820, 2));
    CHECK(stickers_refused_with(KIOSK_SAMPLE_TOO_GREAT, 4, src, 0, tints, 0, 0));
    put_tints(tints);
    CHECK(stickers_refused_with(KIOSK_NO_BUDGET, none, src, 12, tints, 0, 2));
    CHECK(stickers_refused_with(KIOSK_NO_BUDGET, none, src, 0, tints, 0, 0));
    CHECK(kiosk_stickers(many, sizeof many, tints, 0, dst, sizeof dst, four, sums, &place) == -KIOSK_NO_BUDGET);
    memset(dst, 99, sizeof dst);
    CHECK(kiosk_stickers(many, sizeof many, tints, 1, dst, sizeof dst, four, sums, &place) == -KIOSK_TOO_MANY_PIXELS);
    CHECK(dst[0] == 99 && memcmp(dst, dst + 1, sizeof dst - 1) == 0);
    CHECK(four[0] == 1 && four[3] == 1 && sums[0] == 1 && sums[1] == 1 && place == 77);
    CHECK(kiosk_stickers(many, sizeof many - 6, tints, 3, dst, sizeof dst - 1, four, sums, &place) == 3);
    CHECK(dst[0] == 5 && dst[65535] == 5 && four[3] == 5 && sums[0] == 655360 && sums[1] == 655360 && place == 77);
}

/* What a call of the printer may write, each between bytes or numbers that nobody may touch. */
struct printer_room {
    uint8_t served[1 + 24 + 1];
    size_t place[1 + 1 + 1];
};

static int64_t print_in(struct printer_room *room, const uint32_t *arrivals, size_t arrivals_len, size_t turns)
{
    memset(room, 0x5a, sizeof *room);
    return kiosk_printer(arrivals, arrivals_len, room->served + 1, turns, room->place + 1);
}

/* Do arrivals give these turns, and is all around them, and the place, as it was? */
static int prints(const uint32_t *arrivals, size_t arrivals_len, const uint8_t *expected, size_t turns)
{
    struct printer_room room, like;

    memset(&like, 0x5a, sizeof like);
    memcpy(like.served + 1, expected, turns);
    return print_in(&room, arrivals, arrivals_len, turns) == (int64_t)turns && memcmp(&room, &like, sizeof like) == 0;
}

/* Are arrivals refused at this place, and is all else as it was, whatever the number of turns? */
static int printer_refused_at(size_t at, const uint32_t *arrivals, size_t arrivals_len)
{
    static const size_t counts[4] = {0, 1, 2, 24};
    struct printer_room room, like;

    memset(&like, 0x5a, sizeof like);
    like.place[1] = at;
    for (size_t k = 0; k < 4; k++)
        if (print_in(&room, arrivals, arrivals_len, counts[k]) != -KIOSK_WRONG_ARRIVAL
            || memcmp(&room, &like, sizeof like) != 0)
            return 0;
    return 1;
}

/* In turn 0 kiosk 2 is the first from 0 on, and then 5 the first behind 2. In turn 2 kiosk 0 has come, and is looked at
 * behind 6 and 7, before 2. In turn 5 kiosk 3 is served, and the idle turn 6 leaves it the last one served: of 3 and 4,
 * which come together in turn 7, it is 4 that is the next. Turn 23 is not simulated. */
static void printer(void)
{
    static const uint32_t arrivals[21] = {0, 2, 2, 0, 5, 1, 2, 0, 1, 5, 3, 1, 7, 3, 1, 7, 4, 1, 23, 6, 999};
    static const uint8_t expected[10] = {
        2, 5, 0, 2, KIOSK_PRINTER_IDLE, 3, KIOSK_PRINTER_IDLE, 4, 3, KIOSK_PRINTER_IDLE,
    };
    static const uint32_t late[6] = {2, 7, 1, 2, 0, 1};
    uint8_t idle[24];

    for (size_t turns = 0; turns <= sizeof expected; turns++)
        CHECK(prints(arrivals, 21, expected, turns));
    memset(idle, KIOSK_PRINTER_IDLE, sizeof idle);
    CHECK(prints(arrivals, 0, idle, sizeof idle) && prints(arrivals, 0, idle, 0));
    /* Until a kiosk has been served, the round starts at kiosk 0, behind idle turns too. */
    idle[2] = 0;
    idle[3] = 7;
    CHECK(prints(late, 6, idle, sizeof idle));
}

/* All kiosks come in turn 0, the last one first, with two prints each. */
static void printer_of_all_kiosks(void)
{
    uint32_t arrivals[3 * KIOSK_PRINTER_KIOSKS];
    uint8_t expected[24];

    for (uint32_t k = 0; k < KIOSK_PRINTER_KIOSKS; k++) {
        arrivals[3 * k] = 0;
        arrivals[3 * k + 1] = KIOSK_PRINTER_KIOSKS - 1 - k;
        arrivals[3 * k + 2] = 2;
    }
    for (size_t turn = 0; turn < 24; turn++)
        expected[turn] = (uint8_t)(turn < 16 ? turn % 8 : KIOSK_PRINTER_IDLE);
    CHECK(prints(arrivals, 3 * KIOSK_PRINTER_KIOSKS, expected, 24));
    /* Kiosk 7 has more prints than there are turns. It gets no more than its own until the others have no more. */
    arrivals[2] = KIOSK_PRINT_LIMIT;
    memset(expected + 16, 7, 8);
    CHECK(prints(arrivals, 3 * KIOSK_PRINTER_KIOSKS, expected, 24));
}

/* Does an arrival stand behind those of turns 3 and 7? In turns 0 to 2 none has come yet. */
static int stands(uint32_t turn, uint32_t kiosk, uint32_t count)
{
    static const uint8_t idle[3] = {KIOSK_PRINTER_IDLE, KIOSK_PRINTER_IDLE, KIOSK_PRINTER_IDLE};
    const uint32_t arrivals[9] = {3, 1, 1, 7, 1, 1, turn, kiosk, count};

    return prints(arrivals, 9, idle, 3) && prints(arrivals, 9, idle, 0);
}

/* Is it refused there, at its own place? */
static int is_at_fault(uint32_t turn, uint32_t kiosk, uint32_t count)
{
    const uint32_t arrivals[9] = {3, 1, 1, 7, 1, 1, turn, kiosk, count};

    return printer_refused_at(2, arrivals, 9);
}

static void printer_limits(void)
{
    static const uint32_t faults[12] = {5, KIOSK_PRINTER_KIOSKS, 1, 4, 0, 1, 5, 0, 0, 5, 0, 1};

    CHECK(KIOSK_PRINTER_KIOSKS == 8 && KIOSK_PRINTER_IDLE == 255);
    CHECK(KIOSK_ARRIVAL_LIMIT == 1000 && KIOSK_TURN_LIMIT == 100000 && KIOSK_PRINT_LIMIT == 999);
    CHECK(stands(7, 0, 1) && stands(KIOSK_TURN_LIMIT - 1, KIOSK_PRINTER_KIOSKS - 1, KIOSK_PRINT_LIMIT));
    CHECK(is_at_fault(7, KIOSK_PRINTER_KIOSKS, 1) && is_at_fault(7, 256, 1) && is_at_fault(7, UINT32_MAX, 1));
    CHECK(is_at_fault(7, 0, 0) && is_at_fault(7, 0, KIOSK_PRINT_LIMIT + 1));
    CHECK(is_at_fault(7, 0, 65537) && is_at_fault(7, 0, UINT32_MAX));
    CHECK(is_at_fault(KIOSK_TURN_LIMIT, 0, 1) && is_at_fault(UINT32_MAX, 0, 1));
    /* A turn may not be before the one in front of it, if it is behind the first or not. */
    CHECK(is_at_fault(6, 0, 1) && is_at_fault(2, 0, 1));
    /* The first fault decides. */
    CHECK(printer_refused_at(0, faults, 12) && printer_refused_at(1, faults + 3, 9));
    CHECK(printer_refused_at(0, faults + 6, 6));
}

/* An arrival that lacks one number, or two, is at fault at its place, unless one before it is. */
static void printer_of_parts(void)
{
    static const uint32_t arrivals[9] = {0, 1, 1, 0, 1, 1, 0, 1, 1}, faulty[5] = {0, 8, 1, 0, 1};
    static const uint8_t three[4] = {1, 1, 1, KIOSK_PRINTER_IDLE};

    for (size_t length = 0; length <= 9; length++)
        if (length % 3 != 0)
            CHECK(printer_refused_at(length / 3, arrivals, length));
    CHECK(prints(arrivals, 9, three, 4) && prints(arrivals, 6, three, 2));
    CHECK(printer_refused_at(0, faulty, 4) && printer_refused_at(0, faulty, 5));
}

/* As many arrivals as there may be. All beyond them are at fault at the same place, whole or not, sound or not. */
static void printer_of_most_arrivals(void)
{
    static uint32_t arrivals[3 * (KIOSK_ARRIVAL_LIMIT + 2)];
    const size_t most = 3 * KIOSK_ARRIVAL_LIMIT;
    uint8_t first[24];

    for (size_t k = 2; k < most + 6; k += 3)
        arrivals[k] = 1;
    memset(first, 0, sizeof first);
    CHECK(prints(arrivals, most, first, sizeof first) && prints(arrivals, most - 3, first, sizeof first));
    for (size_t more = 1; more <= 6; more++)
        CHECK(printer_refused_at(KIOSK_ARRIVAL_LIMIT, arrivals, most + more));
    arrivals[most + 1] = KIOSK_PRINTER_KIOSKS;
    CHECK(printer_refused_at(KIOSK_ARRIVAL_LIMIT, arrivals, most + 3));
    CHECK(printer_refused_at(KIOSK_ARRIVAL_LIMIT - 1, arrivals, most - 1));
    CHECK(printer_refused_at(KIOSK_ARRIVAL_LIMIT - 1, arrivals, most - 2));
    arrivals[most - 1] = 0;
    for (size_t more = 0; more <= 6; more++)
        CHECK(printer_refused_at(KIOSK_ARRIVAL_LIMIT - 1, arrivals, most + more));
}

static void spools(void)
{
    struct kiosk_record records[2] = {
        {99, 2, 1, KIOSK_SRGB, 8, 1, 501},
        {99, 1, 1, KIOSK_ESRGB, 10, 3, 501},
    };
    struct kiosk_record record;
    uint8_t file[56];
    uint16_t shop = 0;
    uint32_t table = 0;
    size_t place = 77, next = 0;

    CHECK(sizeof record == 16);
    memset(file, 0x5a, sizeof file);
    CHECK(kiosk_lay_out(records, 2, 7, file, 55, &place) == -KIOSK_WRONG_DESTINATION_LENGTH);
    CHECK(file[0] == 0x5a);
    CHECK(kiosk_lay_out(records, 2, 7, file, sizeof file, &place) == 56);
    CHECK(file[44] == 0x5a && file[55] == 0x5a);
    CHECK(kiosk_open(file, sizeof file, &shop, &table) == 2);
    CHECK(shop == 7 && table == 12);

    CHECK(kiosk_find(file, sizeof file, 1, &record) == 6);
    CHECK(record.offset == 50 && record.width == 1 && record.height == 1 && record.kind == KIOSK_ESRGB);
    CHECK(record.bits == 10 && record.copies == 3 && record.order == 501);
    CHECK(kiosk_find(file, sizeof file, 2, &record) == -KIOSK_NO_SUCH_FRAME);
    CHECK(record.offset == 0 && record.bits == 0 && record.order == 0);

    CHECK(kiosk_step(file, sizeof file, &next, &record) == 6 && next == 1 && record.offset == 44);
    CHECK(kiosk_step(file, sizeof file, &next, &record) == 6 && next == 2 && record.offset == 50);
    CHECK(kiosk_step(file, sizeof file, &next, &record) == -KIOSK_NO_SUCH_FRAME && next == 2);

    CHECK(kiosk_lay_out(records, 1, 7, file, 34, &place) == 34);
    CHECK(kiosk_open(file, 34, &shop, &table) == 1);
    CHECK(kiosk_lay_out(records, 0, 7, file, 12, &place) == 12);
    CHECK(kiosk_open(file, 12, &shop, &table) == 0);
    CHECK(kiosk_lay_out(records, 2, 7, file, sizeof file, &place) == 56);

    CHECK(kiosk_open(file, 11, &shop, &table) == -KIOSK_TOO_SHORT);
    CHECK(kiosk_open(file, 55, &shop, &table) == -KIOSK_WRONG_FILE_LENGTH);
    CHECK(shop == 7 && table == 12);
    records[1].bits = 8;
    CHECK(kiosk_lay_out(records, 2, 7, file, sizeof file, &place) == -KIOSK_UNKNOWN_KIND);
    CHECK(place == 1);
    records[1].bits = 10;
    records[0].width = 8193;
    CHECK(kiosk_lay_out(records, 2, 7, file, sizeof file, &place) == -KIOSK_WRONG_SIZE);
    CHECK(place == 0);
}

/* The standard's own kinds: with their bits, and refused with others. */
static void spools_of_standard_ycc(void)
{
    struct kiosk_record records[2] = {
        {0, 1, 1, KIOSK_ESYCC, 16, 1, 501},
        {0, 1, 1, KIOSK_SYCC, 8, 1, 502},
    };
    struct kiosk_record record;
    uint8_t file[12 + 2 * 16 + 6 + 3];
    size_t place = 77;

    memset(file, 0x5a, sizeof file);
    CHECK(kiosk_lay_out(records, 2, 7, file, sizeof file, &place) == (int64_t)sizeof file);
    CHECK(kiosk_find(file, sizeof file, 0, &record) == 6);
    CHECK(record.offset == 44 && record.kind == KIOSK_ESYCC && record.bits == 16);
    CHECK(kiosk_find(file, sizeof file, 1, &record) == 3);
    CHECK(record.offset == 50 && record.kind == KIOSK_SYCC && record.bits == 8);
    CHECK(place == 77);
    records[1].bits = 10;
    CHECK(kiosk_lay_out(records, 2, 7, file, sizeof file, &place) == -KIOSK_UNKNOWN_KIND);
    CHECK(place == 1);
    file[12 + 9] = 8;
    CHECK(kiosk_find(file, sizeof file, 0, &record) == -KIOSK_UNKNOWN_KIND);
    CHECK(record.kind == 0);
}

/* Two rows of two sRGB pixels with a gap of two bytes between them, and a row of 12-bit e-sRGB whose stride of 64 leads
 * nowhere: samples/gapped.spool. */
static const uint8_t gapped[76] = {
    255, 255, 7, 0, 16, 0, 0, 0, 76, 0, 0, 0, 2, 0, 20, 0,
    56, 0, 0, 0, 2, 0, 2, 0, KIOSK_SRGB, 8, 1, 0, 246, 1, 0, 0, 8, 0, 0, 0,
    70, 0, 0, 0, 1, 0, 1, 0, KIOSK_ESRGB, 12, 3, 0, 246, 1, 0, 0, 64, 0, 0, 0,
    255, 0, 0, 0, 255, 0, 238, 238, 0, 0, 255, 255, 255, 255,
    0, 6, 0, 10, 248, 13,
};

/* samples/two-frames.spool, which is plain. */
static const uint8_t two_frames[56] = {
    2, 0, 7, 0, 12, 0, 0, 0, 56, 0, 0, 0,
    44, 0, 0, 0, 2, 0, 1, 0, KIOSK_SRGB, 8, 1, 0, 245, 1, 0, 0,
    50, 0, 0, 0, 1, 0, 1, 0, KIOSK_ESRGB, 10, 3, 0, 245, 1, 0, 0,
    1, 2, 3, 4, 5, 6, 128, 1, 128, 1, 128, 1,
};

/* Is row `row` of a frame so long, and does it start there? */
static int row_is(const uint8_t *file, size_t file_len, size_t number, size_t row, int64_t length, size_t at)
{
    size_t start[3] = {77, 77, 77};

    return kiosk_row(file, file_len, number, row, start + 1) == length && start[1] == at && start[0] == 77
           && start[2] == 77;
}

static void strided_spools(void)
{
    struct kiosk_strided_record found;
    uint16_t shop = 0;
    uint32_t table = 0;
    size_t next = 0;

    CHECK(sizeof found == 20);
    CHECK(kiosk_open(gapped, sizeof gapped, &shop, &table) == 2 && shop == 7 && table == 16);
    CHECK(kiosk_find_strided(gapped, sizeof gapped, 0, &found) == 14);
    CHECK(found.record.offset == 56 && found.record.width == 2 && found.record.height == 2 && found.stride == 8);
    CHECK(found.record.kind == KIOSK_SRGB && found.record.bits == 8);
    CHECK(found.record.copies == 1 && found.record.order == 502);
    CHECK(kiosk_step_strided(gapped, sizeof gapped, &next, &found) == 14 && next == 1 && found.stride == 8);
    CHECK(kiosk_step_strided(gapped, sizeof gapped, &next, &found) == 6 && next == 2 && found.stride == 64);
    CHECK(kiosk_step_strided(gapped, sizeof gapped, &next, &found) == -KIOSK_NO_SUCH_FRAME && next == 2);
    CHECK(found.record.offset == 0 && found.record.order == 0 && found.stride == 0);

    CHECK(row_is(gapped, sizeof gapped, 0, 0, 6, 56) && row_is(gapped, sizeof gapped, 0, 1, 6, 64));
    CHECK(row_is(gapped, sizeof gapped, 0, 2, 0, 0) && row_is(gapped, sizeof gapped, 0, SIZE_MAX, 0, 0));
    CHECK(row_is(gapped, sizeof gapped, 1, 0, 6, 70) && row_is(gapped, sizeof gapped, 1, 1, 0, 0));
    CHECK(row_is(gapped, sizeof gapped, 2, 0, -KIOSK_NO_SUCH_FRAME, 77));
    CHECK(row_is(gapped, sizeof gapped - 1, 0, 2, -KIOSK_WRONG_FILE_LENGTH, 77));
    CHECK(row_is(gapped, 15, 0, 0, -KIOSK_TOO_SHORT, 77));
}

/* A step leaves a frame with a wrong stride behind, and stays at a header with another size of records. */
static void strided_walk(void)
{
    struct kiosk_strided_record found;
    struct kiosk_record plain;
    uint8_t file[76];
    size_t next = 0, plain_next = 0;

    memcpy(file, gapped, sizeof gapped);
    file[32] = 5;
    CHECK(kiosk_step_strided(file, sizeof file, &next, &found) == -KIOSK_WRONG_STRIDE && next == 1);
    CHECK(kiosk_step(file, sizeof file, &plain_next, &plain) == -KIOSK_WRONG_STRIDE && plain_next == 1);
    CHECK(kiosk_step_strided(file, sizeof file, &next, &found) == 6 && next == 2 && found.record.offset == 70);
    CHECK(kiosk_step(file, sizeof file, &plain_next, &plain) == 6 && plain_next == 2 && plain.offset == 70);
    file[14] = 21;
    next = plain_next = 1;
    CHECK(kiosk_step_strided(file, sizeof file, &next, &found) == -KIOSK_WRONG_RECORD_SIZE && next == 1);
    CHECK(kiosk_step(file, sizeof file, &plain_next, &plain) == -KIOSK_WRONG_RECORD_SIZE && plain_next == 1);
}

/* The frame and the record behind a number, and a step from there, with the stride and without: the answers, the first
 * 16 bytes of the records and the next number are the same, and a refused record is zeros. */
static int found_alike(const uint8_t *file, size_t file_len, size_t number)
{
    static const struct kiosk_strided_record zeros = {{0, 0, 0, 0, 0, 0, 0}, 0};
    struct kiosk_strided_record found, stepped;
    struct kiosk_record plain, plain_stepped;
    size_t next = number, plain_next = number;
    int64_t answer;

    memset(&found, 0x5a, sizeof found);
    memset(&plain, 0x5b, sizeof plain);
    answer = kiosk_find_strided(file, file_len, number, &found);
    if (kiosk_find(file, file_len, number, &plain) != answer
        || kiosk_step_strided(file, file_len, &next, &stepped) != answer
        || kiosk_step(file, file_len, &plain_next, &plain_stepped) != answer)
        return 0;
    return memcmp(&plain, &found, sizeof plain) == 0 && memcmp(&stepped, &found, sizeof found) == 0
           && memcmp(&plain_stepped, &plain, sizeof plain) == 0 && plain_next == next
           && (answer >= 0 || memcmp(&found, &zeros, sizeof zeros) == 0);
}

/* The same of each frame of a file with each byte damaged, and of the file cut short. */
static void found_alike_everywhere(const uint8_t *file, size_t file_len)
{
    uint8_t damaged[76];

    for (size_t at = 0; at < file_len; at++)
        for (unsigned change = 0; change < 256; change += change < 4 ? 1 : 7) {
            memcpy(damaged, file, file_len);
            damaged[at] = (uint8_t)(damaged[at] + change);
            for (size_t number = 0; number < 3; number++)
                CHECK(found_alike(damaged, file_len, number) && found_alike(file, at, number));
        }
}

/* Is a way to the other layout refused with this number, at this place if it has one, and is all else as it was? */
static int relayout_refused(int number, size_t at, const uint8_t *file, size_t file_len, size_t room)
{
    uint8_t dst[80];
    size_t place = 77;

    memset(dst, 0x5a, sizeof dst);
    if (kiosk_relayout(file, file_len, dst, room, &place) != -number || place != at)
        return 0;
    return untouched(dst, sizeof dst);
}

/* The two frames, whose second row starts in the gap if the stride is 6: 12 and 6 bytes of pixels. */
static void other_layout(void)
{
    uint8_t strided[76], plain[63], again[75], zero[16];
    struct kiosk_strided_record found;
    size_t place = 77;

    memcpy(strided, gapped, sizeof gapped);
    strided[32] = 6;
    memset(plain, 0x5a, sizeof plain);
    memset(again, 0x5a, sizeof again);
    CHECK(kiosk_relayout(strided, sizeof strided, plain, 62, &place) == 62);
    CHECK(plain[0] == 2 && plain[2] == 7 && plain[4] == 12 && plain[8] == 62 && plain[62] == 0x5a);
    CHECK(memcmp(plain + 44, gapped + 56, 12) == 0 && memcmp(plain + 56, gapped + 70, 6) == 0);
    CHECK(kiosk_find_strided(plain, 62, 1, &found) == 6 && found.record.offset == 56 && found.stride == 6);
    CHECK(kiosk_relayout(plain, 62, again, 74, &place) == 74);
    CHECK(again[74] == 0x5a && memcmp(again + 56, plain + 44, 18) == 0);
    CHECK(kiosk_find_strided(again, 74, 0, &found) == 12 && found.record.offset == 56 && found.stride == 6);
    CHECK(kiosk_find_strided(again, 74, 1, &found) == 6 && found.record.offset == 68 && found.stride == 6);
    CHECK(found.record.kind == KIOSK_ESRGB && found.record.bits == 12);
    CHECK(found.record.copies == 3 && found.record.order == 502);

    memcpy(zero, gapped, 16);
    zero[8] = 16;
    zero[12] = 0;
    CHECK(kiosk_relayout(zero, 16, plain, 12, &place) == 12 && plain[0] == 0 && plain[8] == 12);
    CHECK(kiosk_relayout(plain, 12, again, 16, &place) == 16 && memcmp(again, zero, 16) == 0);
    CHECK(place == 77);
}

static void other_layout_refused(void)
{
    uint8_t file[76];

    memcpy(file, gapped, sizeof gapped);
    CHECK(relayout_refused(KIOSK_WRONG_STRIDE, 0, file, sizeof file, 62));
    file[32] = 5;
    CHECK(relayout_refused(KIOSK_WRONG_STRIDE, 0, file, sizeof file, 62));
    file[16] = 15;
    CHECK(relayout_refused(KIOSK_WRONG_STRIDE, 0, file, sizeof file, 62));
    CHECK(row_is(file, sizeof file, 0, 0, -KIOSK_WRONG_STRIDE, 77));
    file[32] = 6;
    CHECK(relayout_refused(KIOSK_PIXELS_OUTSIDE, 0, file, sizeof file, 62));
    CHECK(row_is(file, sizeof file, 0, 0, -KIOSK_PIXELS_OUTSIDE, 77));
    file[16] = 56;
    CHECK(relayout_refused(KIOSK_WRONG_DESTINATION_LENGTH, 77, file, sizeof file, 61));
    CHECK(relayout_refused(KIOSK_WRONG_DESTINATION_LENGTH, 77, file, sizeof file, 63));
    file[36] = 71;
    CHECK(relayout_refused(KIOSK_PIXELS_OUTSIDE, 1, file, sizeof file, 62));
    file[42] = 0;
    CHECK(relayout_refused(KIOSK_WRONG_SIZE, 1, file, sizeof file, 62));
    file[45] = 8;
    CHECK(relayout_refused(KIOSK_UNKNOWN_KIND, 1, file, sizeof file, 62));
    file[4] = 15;
    CHECK(relayout_refused(KIOSK_TABLE_OUTSIDE, 77, file, sizeof file, 62));
    file[13] = 1;
    CHECK(relayout_refused(KIOSK_TOO_MANY_FRAMES, 77, file, sizeof file, 62));
    file[14] = 16;
    CHECK(relayout_refused(KIOSK_WRONG_RECORD_SIZE, 77, file, sizeof file, 62));
    file[8] = 75;
    CHECK(relayout_refused(KIOSK_WRONG_FILE_LENGTH, 77, file, sizeof file, 62));
    CHECK(relayout_refused(KIOSK_TOO_SHORT, 77, file, 15, 62));
}

/* The bytes of a row of 8,192 pixels, and so many rows that only all frames together are too long for a spool. */
#define LONG_ROW (3 * 8192)
#define LONG_ROWS (4294967295u / (LONG_ROW * KIOSK_FRAME_LIMIT) + 1)

/* The most frames, which share the same bytes. */
static void other_layout_too_long(void)
{
    static uint8_t file[12 + 16 * KIOSK_FRAME_LIMIT + LONG_ROW * LONG_ROWS];
    const uint32_t start = 12 + 16 * KIOSK_FRAME_LIMIT, length = sizeof file;
    const struct kiosk_record record = {start, 8192, LONG_ROWS, KIOSK_SRGB, 8, 1, 501};
    const uint8_t header[8] = {KIOSK_FRAME_LIMIT, 0, 7, 0, 12, 0, 0, 0};

    memcpy(file, header, sizeof header);
    memcpy(file + 8, &length, 4);
    for (size_t k = 0; k < KIOSK_FRAME_LIMIT; k++)
        memcpy(file + 12 + 16 * k, &record, sizeof record);
    CHECK(relayout_refused(KIOSK_TOTAL_TOO_LONG, 77, file, sizeof file, 62));
    file[0]--;
    CHECK(relayout_refused(KIOSK_WRONG_DESTINATION_LENGTH, 77, file, sizeof file, 62));
}

/* Are the text of a listing, its length and the bytes behind it, which were all 0x5a, as they must be? */
static int lists(const uint8_t *file, size_t file_len, const char *expected)
{
    static uint8_t text[KIOSK_LISTING_ROOM];
    size_t length = strlen(expected);

    memset(text, 0x5a, sizeof text);
    if (kiosk_listing(file, file_len, text) != length || memcmp(text, expected, length) != 0)
        return 0;
    return untouched(text + length, sizeof text - length);
}

static void listings(void)
{
    static uint8_t longer[65537];
    const uint8_t empty[12] = {0, 0, 7, 0, 12, 0, 0, 0, 12, 0, 0, 0};
    const char *heading = "frame order kind bits width height copies offset\n";

    CHECK(KIOSK_LISTING_ROOM == 5041);
    CHECK(lists(empty, sizeof empty, heading));
    CHECK(lists(empty, 11, "refused 1\n"));
    CHECK(lists(longer, sizeof longer, "refused 15\n"));
    CHECK(lists(longer, sizeof longer - 1, "refused 2\n"));
    memcpy(longer, empty, sizeof empty);
    longer[8] = 0;
    longer[10] = 1;
    CHECK(lists(longer, sizeof longer - 1, heading));
    CHECK(lists(gapped, sizeof gapped, "frame order kind bits width height copies offset\n"
                                       "0 502 1 8 2 2 1 56\n1 502 2 12 1 1 3 70\n"));
    CHECK(lists(gapped, 15, "refused 1\n"));
}

/* A spool of the most frames is taken by each function that reads one. With one frame more in its header, whose low byte
 * is at `count_at`, each refuses it: the table would still lie inside the file. */
static void fullest_spool(uint8_t *file, size_t file_len, size_t count_at)
{
    static uint8_t text[KIOSK_LISTING_ROOM];
    struct kiosk_record record;
    uint16_t shop = 0;
    uint32_t table = 0;
    size_t next = 95, lines = 0;

    CHECK(kiosk_open(file, file_len, &shop, &table) == 96 && shop == 7);
    CHECK(kiosk_find(file, file_len, 95, &record) == 3 && record.order == 95);
    CHECK(kiosk_find(file, file_len, 96, &record) == -KIOSK_NO_SUCH_FRAME);
    CHECK(kiosk_step(file, file_len, &next, &record) == 3 && next == 96);
    CHECK(row_is(file, file_len, 95, 0, 3, file_len - 3));
    for (size_t k = kiosk_listing(file, file_len, text); k > 0; k--)
        lines += text[k - 1] == '\n';
    CHECK(lines == 1 + 96);

    file[count_at] = 97;
    next = 0;
    CHECK(kiosk_open(file, file_len, &shop, &table) == -KIOSK_TOO_MANY_FRAMES);
    CHECK(kiosk_find(file, file_len, 0, &record) == -KIOSK_TOO_MANY_FRAMES);
    CHECK(kiosk_step(file, file_len, &next, &record) == -KIOSK_TOO_MANY_FRAMES && next == 0);
    CHECK(row_is(file, file_len, 0, 0, -KIOSK_TOO_MANY_FRAMES, 77));
    CHECK(lists(file, file_len, "refused 3\n"));
    CHECK(relayout_refused(KIOSK_TOO_MANY_FRAMES, 77, file, file_len, 62));
}

/* 96 frames of one pixel, laid out and in the other layout; 97 are not laid out. */
static void fullest_spools(void)
{
    const struct kiosk_record pixel = {0, 1, 1, KIOSK_SRGB, 8, 1, 0};
    static struct kiosk_record records[97];
    static uint8_t plain[12 + 96 * (16 + 3)], strided[16 + 96 * (20 + 3)];
    size_t place = 77;

    CHECK(KIOSK_FRAME_LIMIT == 96);
    for (uint32_t k = 0; k < 97; k++) {
        records[k] = pixel;
        records[k].order = k;
    }
    memset(plain, 0x5a, sizeof plain);
    CHECK(kiosk_lay_out(records, 97, 7, plain, sizeof plain, &place) == -KIOSK_TOO_MANY_FRAMES);
    CHECK(untouched(plain, sizeof plain));
    CHECK(kiosk_lay_out(records, 96, 7, plain, sizeof plain, &place) == (int64_t)sizeof plain);
    CHECK(kiosk_relayout(plain, sizeof plain, strided, sizeof strided, &place) == (int64_t)sizeof strided);
    CHECK(place == 77);
    fullest_spool(plain, sizeof plain, 0);
    fullest_spool(strided, sizeof strided, 12);
}

int main(void)
{
    pictures();
    clipped_pixels();
    clipped_refused();
    standard_ycc();
    standard_ycc_refused();
    round_trip_refused();
    both_runs();
    both_runs_clipped();
    light();
    light_at_sixteen();
    moved_light();
    moved_light_not_taken();
    tints();
    stickers();
    stickers_with_ties();
    stickers_of_many_pixels();
    stickers_refused();
    printer();
    printer_of_all_kiosks();
    printer_limits();
    printer_of_parts();
    printer_of_most_arrivals();
    spools();
    spools_of_standard_ycc();
    strided_spools();
    strided_walk();
    found_alike_everywhere(gapped, sizeof gapped);
    found_alike_everywhere(two_frames, sizeof two_frames);
    other_layout();
    other_layout_refused();
    other_layout_too_long();
    listings();
    fullest_spools();
    printf("%d checks from C, %d failed\n", checks, failures);
    return failures != 0;
}
