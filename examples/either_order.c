/* Two clerks settle two matches side by side, in either order. Where the matches have no account in common, each call is answered the same and the ledgers are the same bytes, with a default too;
   where one buyer has the cash for one of its two matches, the one paid last is in default, and the ledgers differ. */
#include "delivery.h"
#include <stdio.h>
#include <string.h>

static char output[2][DELIVERY_ROOM + 1];

/* Runs the lines of a book and two calls, and prints the calls with their answers; returns the ledger, or NULL. */
static const char *settle(const char *book, const char *first, const char *second, char *out) {
    char session[256];
    int length = snprintf(session, sizeof session, "%s%s\n%s\n", book, first, second);
    if (length < 0 || (size_t)length >= sizeof session) {
        return NULL;
    }
    size_t written = delivery_session((const uint8_t *)session, (size_t)length, (uint8_t *)out, DELIVERY_ROOM);
    out[written] = '\0';
    if (strncmp(out, "ok ", 3) != 0) {
        return NULL; /* line one was refused, and no ledger follows */
    }
    /* each line of the session has one line of the output, in order; the ledger follows */
    const char *answer = out;
    for (const char *line = book; *line != '\0'; line = strchr(line, '\n') + 1) {
        answer = strchr(answer, '\n') + 1;
    }
    const char *next = strchr(answer, '\n') + 1, *ledger = strchr(next, '\n') + 1;
    printf("%s: %.*s, %s: %.*s\n", first, (int)(next - answer) - 1, answer, second, (int)(ledger - next) - 1, next);
    return ledger;
}

/* 1 where both orders give the same ledger, 0 where they do not, -1 on an error. */
static int either_order(const char *book, const char *one, const char *other) {
    const char *a = settle(book, one, other, output[0]), *b = settle(book, other, one, output[1]);
    if (a == NULL || b == NULL) {
        return -1;
    }
    int same = strcmp(a, b) == 0;
    puts(same ? "the same ledger" : "ledgers that differ");
    return same;
}

/* match 0 of accounts 0 and 1, match 1 of accounts 2 and 3; account 2 has no cash */
#define APART "0 0 5 20 600000\n1 0 1\n1 0 1\n1 0 1\n1 0 1\n2 0 3000000\n4 0 1 1\n4 2 3 1\n5 1 0\n5 3 0\n12 0\n11 600000\n"

/* account 0 buys in both, with the cash for one */
#define IN_COMMON "0 0 5 20 600000\n1 0 1\n1 0 1\n1 0 1\n2 0 3000000\n4 0 1 1\n4 0 2 1\n5 1 0\n5 2 0\n12 0\n11 600000\n"

int main(void) {
    int apart = either_order(APART, "13 0", "13 1");
    int in_common = either_order(IN_COMMON, "13 0", "13 1");
    return apart == 1 && in_common == 0 ? 0 : 1;
}
