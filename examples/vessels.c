/* Prints the ledger page of a coal port's book twice through the C interface: after the first vessel of a match, which stays prepaid with its value held, and after the second, whose due kilograms
   make up the match's, so that the sum of both amounts is paid. */
#include "delivery.h"
#include <stdio.h>
#include <string.h>

/* two units of 20,000 t traded, offered, taken and, two days later, paid; a vessel of 15,000 t due, weighed 14,900 t */
#define FIRST_VESSEL \
    "0 1 20000 20 80000\n1 0 1\n1 0 1\n2 0 3200000000\n7 1 5300\n4 0 1 2\n8 1 2\n10 0 1\n11 80000\n11 80000\n13 0\n" \
    "14 0 14900000 5300 1000 50 3500 1000 15000000\n"

static int print_page(const char *session) {
    static uint8_t page[DELIVERY_PAGE_ROOM];
    size_t length = delivery_page((const uint8_t *)session, strlen(session), page, sizeof page);
    return fwrite(page, 1, length, stdout) == length && length > 0 && putchar('\n') != EOF;
}

int main(void) {
    int first = print_page(FIRST_VESSEL);
    int second = print_page(FIRST_VESSEL "14 0 25200000 5300 1000 50 3500 1000 25000000\n");
    return first && second ? 0 : 1;
}
