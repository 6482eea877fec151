/* A port's own heat table, through the C interface: half of the match's price at heats from 4,300 to 4,999, all of it from 5,000 on.
   Two cargoes of a tonne at 1,000 fen/t, measured at 4,999 and 5,000; prints the session with the printed table and with the port's own, where a fifth of 500 and of 1,000 fen is held, then what a bad table gives. */
#include "delivery.h"
#include <stdio.h>

static void put(uint8_t *at, uint64_t n) {
    for (int i = 0; i < 8; i++) {
        at[i] = (uint8_t)(n >> (56 - 8 * i)); /* most significant byte first */
    }
}

int main(void) {
    static const char input[] =
        "0 1 1 0 1000\n1 0 1\n1 0 1\n2 0 10000\n4 0 1 2\n7 1 5000\n"
        "8 1 1\n10 0 1\n8 1 1\n10 0 1\n11 1000\n11 1000\n13 0\n13 1\n"
        "14 0 1000 4999 0 0 3000 0 1000\n14 1 1000 5000 0 0 3000 0 1000\n";
    static uint8_t table[DELIVERY_TABLE_LENGTH], output[DELIVERY_ROOM];
    put(table, 1701);
    for (int heat = 4300; heat <= 6000; heat++) {
        put(table + 8 + 8 * (heat - 4300), heat < 5000 ? UINT64_C(2475000000) : UINT64_C(4950000000));
    }
    size_t n = delivery_session((const uint8_t *)input, sizeof input - 1, output, sizeof output);
    fwrite(output, 1, n, stdout);
    n = delivery_session_by_table(table, sizeof table, (const uint8_t *)input, sizeof input - 1, output, sizeof output);
    fwrite(output, 1, n, stdout);
    put(table + 16, 1); /* the entry of 4,301 is below that of 4,300 */
    n = delivery_session_by_table(table, sizeof table, (const uint8_t *)input, sizeof input - 1, output, sizeof output);
    fwrite(output, 1, n, stdout);
    return 0;
}
