/* Closes one book through the C interface with three budgets of balance tests, and prints the pairs made, the tests made and the gap: no pairing that empties every position has fewer pairs than pairs less gap.
   Without a test the old passes stand, with five pairs; two groups of accounts with as many units long as short make four, and when every mask was tested the gap is 0. */
#include "delivery.h"
#include <stdio.h>
#include <string.h>

static char output[DELIVERY_ROOM + 1];

/* accounts 0, 1 and 2 are long 7, 2 and 6 units, accounts 3, 4 and 5 short 8, 3 and 4: 7 is 3 and 4, and 8 is 2 and 6 */
#define BOOK "0 0 10 20 300000\n1 0 1\n1 0 1\n1 0 1\n1 0 1\n1 0 1\n1 0 1\n4 0 3 7\n4 1 3 1\n4 1 4 1\n4 2 4 2\n4 2 5 4\n"

/* Closes the book with this budget, and prints what it is answered; whether these are the pairs, the tests and the gap. */
static int closes(unsigned budget, const char *expected) {
    char session[256];
    int length = snprintf(session, sizeof session, BOOK "12 %u\n", budget);
    if (length < 0 || (size_t)length >= sizeof session) {
        return 0;
    }
    size_t written = delivery_session((const uint8_t *)session, (size_t)length, (uint8_t *)output, DELIVERY_ROOM);
    output[written] = '\0';
    if (strncmp(output, "ok ", 3) != 0) {
        return 0; /* line one was refused, and nothing follows its answer */
    }
    /* each line of the session has one line of the output, in order; the ledger follows */
    const char *answer = output;
    for (const char *line = BOOK; *line != '\0'; line = strchr(line, '\n') + 1) {
        answer = strchr(answer, '\n') + 1;
    }
    unsigned pairs, tests, gap;
    if (sscanf(answer, "ok %u %u %u", &pairs, &tests, &gap) != 3) {
        return 0; /* Close was refused */
    }
    printf("budget %u: %u pairs, %u tests, gap %u\n", budget, pairs, tests, gap);
    return strncmp(answer, expected, strlen(expected)) == 0;
}

int main(void) {
    int none = closes(0, "ok 5 0 2\n");
    int most = closes(62, "ok 4 62 1\n");
    int all = closes(1023, "ok 4 63 0\n");
    return none && most && all ? 0 : 1;
}
