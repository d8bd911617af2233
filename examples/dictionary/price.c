/* The price sheet through dictionary.h: the bands of sheet.txt in this folder, and what some numbers of
   deliveries cost by them; last what is said of a count that is too large. From the repository's root, after
   `.ci/archive price`:

       gcc -std=c99 -Iinclude examples/dictionary/price.c target/staticlib/libprice.a -o target/price
       target/price */
#include "dictionary.h"

#include <inttypes.h>
#include <stdio.h>

enum { BANDS = 4 };

/* The last delivery of each band, and its price in cents for a hundred. */
static const uint32_t bands[BANDS][2] = {{100, 2500}, {500, 1990}, {2000, 1745}, {3000, 1499}};

static uint8_t sheet[BANDS * PRICE_BAND_BYTES];

static uint8_t *put_number(uint8_t *bytes, uint32_t number)
{
    for (int i = 0; i < 4; i++) {
        *bytes++ = number >> 8 * i & 255;
    }
    return bytes;
}

static void tell(uint32_t count)
{
    PriceTotal total = price_deliveries(count, sheet, sizeof sheet);
    printf("%" PRIu32 " deliveries: ", count);
    if (total.refusal != PRICE_NONE) {
        printf("refused with %" PRIu32 "\n", total.refusal);
        return;
    }
    printf("%" PRIu32 ".%02" PRIu32 " cents\n", total.cents, total.remainder);
}

int main(void)
{
    uint8_t *bytes = sheet;
    for (int i = 0; i < BANDS; i++) {
        bytes = put_number(bytes, bands[i][0]);
        bytes = put_number(bytes, bands[i][1]);
    }
    tell(0);
    tell(101);
    tell(2345);
    tell(PRICE_MOST_DELIVERIES);
    tell(PRICE_MOST_DELIVERIES + 1);
    return 0;
}
