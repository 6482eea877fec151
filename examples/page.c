/* Prints the ledger page of the book after document 01's worked session, through the C interface. */
#include "delivery.h"
#include <stdio.h>
#include <string.h>

int main(void) {
    static const char session[] =
        "0 0 5 20 600000\n1 0 1\n1 1 1\n2 1 7000000\n4 1 0 2\n5 0 1\n5 0 0\n12 0\n11 610000\n13 0\n17 0\n";
    const uint8_t *input = (const uint8_t *)session;
    static uint8_t page[DELIVERY_PAGE_ROOM];
    size_t length = delivery_page(input, strlen(session), page, sizeof page);
    if (delivery_page(input, strlen(session), page, length - 1) != 0) {
        return 1; /* a buffer that is one byte too short is refused */
    }
    if (delivery_page(input, strlen(session), page, length) != length) {
        return 1; /* one of just the page's length is enough */
    }
    return fwrite(page, 1, length, stdout) == length ? 0 : 1;
}
