/* Looks a price up by heat, through the C interface: the line of the heat in the heat table is the numerator over 4,950,000,000.
   80,000 fen/t at the heats 4,300, 5,300 and 6,000, an exact half to the even fen: 58763, 77091 and 87273. */
#include "delivery.h"
#include <inttypes.h>
#include <stdio.h>
#include <stdlib.h>

int main(void) {
    static uint8_t table[DELIVERY_HEAT_TABLE_ROOM + 1];
    if (delivery_heat_table(table, DELIVERY_HEAT_TABLE_ROOM - 1) != 0) {
        return 1; /* a buffer that is one byte too short is refused */
    }
    if (delivery_heat_table(table, DELIVERY_HEAT_TABLE_ROOM) != DELIVERY_HEAT_TABLE_ROOM) {
        return 1; /* one of just the table's length is enough */
    }
    const uint64_t denominator = UINT64_C(4950000000), price = 80000;
    const int heats[] = {4300, 5300, 6000};
    for (int i = 0; i < 3; i++) {
        /* a line has ten digits and a newline */
        uint64_t n = price * strtoull((const char *)table + 11 * (heats[i] - 4300), NULL, 10);
        uint64_t down = n / denominator, twice = 2 * (n % denominator);
        uint64_t looked_up = down + (twice > denominator || (twice == denominator && down % 2 == 1));
        printf("%d %" PRIu64 "\n", heats[i], looked_up);
    }
    return 0;
}
