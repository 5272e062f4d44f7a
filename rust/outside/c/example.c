/* One red pixel from 8-bit sRGB to 12-bit e-sRGB. */
#include "kiosk.h"
#include <stdio.h>

int main(void)
{
    const uint8_t red[3] = {255, 0, 0};
    uint8_t codes[6];
    size_t place;
    int64_t pixels = kiosk_from_srgb(12, red, sizeof red, codes, sizeof codes, &place);
    if (pixels < 0)
        return 1;
    printf("%d pixel, red code %d\n", (int)pixels, codes[0] + 256 * codes[1]);
    return 0;
}
