/* Two matches of an overseas buyer with ordinary receipts: paid, and then one sold at auction, and one for which nobody bid. */
#include <stdio.h>
#include <string.h>
#include "delivery.h"

static uint8_t page[DELIVERY_PAGE_ROOM];

static int print_page(const char *title, const char *session) {
    size_t n = delivery_page((const uint8_t *)session, strlen(session), page, sizeof page);
    printf("%s\n", title);
    return n == 0 || fwrite(page, 1, n, stdout) != n;
}

/* account 0 sells, account 1 is the overseas buyer, account 2 bids */
#define PAID "0 0 5 20 600000\n1 0 1\n1 1 1\n1 0 1\n2 1 9000000\n2 2 7000000\n5 0 0\n5 0 0\n5 0 0\n4 1 0 3\n" \
    "8 0 2\n10 1 0\n8 0 1\n10 1 0\n11 600000\n11 600000\n13 0\n13 1\n"

int main(void) {
    /* stage 6: the money is held, the receipts are frozen and the seller's */
    if (print_page("awaiting auction", PAID) != 0) {
        return 1;
    }
    /* match 0, stage 2: the receipts are the winner's, the proceeds the buyer's, and the seller has 80%; match 1, stage 4: the seller has 20%, and its receipt back */
    return print_page("after Auction", PAID "18 0 2 6500000\n" "18 1 2 0\n");
}
