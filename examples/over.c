/* Runs a coal port's session through the C interface and prints the kilograms over that its last line, a Measure, is answered with. */
#include "delivery.h"
#include <stdio.h>
#include <string.h>

static uint8_t output[DELIVERY_ROOM];

int main(void) {
    /* one unit of 20,000 t traded, offered, taken and, two days later, paid; 20,600,000 kg weighed */
    static const char session[] =
        "0 1 20000 20 80000\n1 0 1\n1 0 1\n2 0 1600000000\n7 1 5300\n4 0 1 1\n8 1 1\n10 0 1\n11 80000\n11 80000\n13 0\n"
        "14 0 20600000 5300 1000 50 3500 1000 20000000\n";
    size_t length = delivery_session((const uint8_t *)session, strlen(session), output, sizeof output);
    /* each line of the session has one line of the output, in order; the ledger follows */
    const uint8_t *answer = output, *end = output + length;
    for (const char *line = strchr(session, '\n'); line[1] != '\0'; line = strchr(line + 1, '\n')) {
        const uint8_t *newline = memchr(answer, '\n', (size_t)(end - answer));
        if (newline == NULL) {
            return 1; /* line one was refused, and nothing follows its answer */
        }
        answer = newline + 1;
    }
    unsigned long long over;
    if (sscanf((const char *)answer, "ok %llu", &over) != 1) {
        return 1; /* the Measure was refused */
    }
    printf("%llu kg over\n", over);
    return 0;
}
