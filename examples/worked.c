/* Runs document 01's worked session through the C interface and prints its output. */
#include "delivery.h"
#include <stdio.h>
#include <string.h>

static uint8_t output[DELIVERY_ROOM];

int main(void) {
    static const char session[] =
        "0 0 5 20 600000\n1 0 1\n1 1 1\n2 1 7000000\n4 1 0 2\n5 0 1\n5 0 0\n12 0\n11 610000\n13 0\n17 0\n";
    const uint8_t *input = (const uint8_t *)session;
    if (delivery_session(input, strlen(session), output, sizeof output - 1) != 0) {
        return 1; /* a buffer that is too short is refused */
    }
    size_t length = delivery_session(input, strlen(session), output, sizeof output);
    return fwrite(output, 1, length, stdout) == length ? 0 : 1;
}
