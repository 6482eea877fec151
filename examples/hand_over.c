/* A match of two units that is paid in the morning, and handed over in the afternoon. */
#include <stdio.h>
#include <string.h>
#include "delivery.h"

static uint8_t page[DELIVERY_PAGE_ROOM];

static int print_page(const char *title, const char *session) {
    size_t n = delivery_page((const uint8_t *)session, strlen(session), page, sizeof page);
    printf("%s\n", title);
    return n == 0 || fwrite(page, 1, n, stdout) != n;
}

#define MORNING "0 0 5 20 600000\n1 0 1\n1 0 1\n2 1 6000000\n4 1 0 2\n5 0 0\n5 0 0\n12 0\n11 600000\n13 0\n"

int main(void) {
    /* stage 5: the money is held, the receipts are frozen and the seller's */
    if (print_page("after Pay", MORNING) != 0) {
        return 1;
    }
    /* stage 2: the receipts are the buyer's, and the seller has 80% */
    return print_page("after Hand over", MORNING "17 0\n");
}
