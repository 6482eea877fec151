/* A factory's daily dispatch through the C interface: prints each call of a list with its answer, and then that the units claimed are those shared out, left by a leaver and still waiting. */
#include "delivery.h"
#include <stdio.h>
#include <string.h>

/* nine units a day; four holders, a day, one of them leaves with two units uncollected, another arrives, a day */
static const char calls[] = "0 9\n1 7\n1 1\n1 5\n1 4\n3\n2 2\n1 8\n3\n";

static char output[DELIVERY_DISPATCH_ROOM(sizeof calls) + 1];

int main(void) {
    size_t length = strlen(calls);
    size_t room = DELIVERY_DISPATCH_ROOM(length);
    if (delivery_dispatch((const uint8_t *)calls, length, (uint8_t *)output, room - 1) != 0) {
        return 1; /* a buffer that is too short is refused */
    }
    size_t written = delivery_dispatch((const uint8_t *)calls, length, (uint8_t *)output, room);
    output[written] = '\0';

    unsigned claimed = 0, shared = 0;
    const char *answer = output;
    for (const char *call = calls; *call != '\0'; call = strchr(call, '\n') + 1) {
        const char *end = strchr(answer, '\n');
        if (end == NULL || strncmp(answer, "ok", 2) != 0) {
            return 1; /* each call of this list is accepted */
        }
        printf("%-4.*s  %.*s\n", (int)strcspn(call, "\n"), call, (int)(end - answer), answer);
        unsigned n;
        if (sscanf(call, "1 %u", &n) == 1) {
            claimed += n;
        }
        if (*call == '3') {
            /* each holder's share, in order of appointment */
            int read;
            for (const char *share = answer + 2; share < end && sscanf(share, " %u%n", &n, &read) == 1; share += read) {
                shared += n;
            }
        }
        answer = end + 1;
    }

    /* after the first day the holders have 4, 0, 2 and 2 units left: the leaver's are 2; after the second day only the last holder waits, for 5 */
    unsigned uncollected = 2, waiting = 5;
    printf("claimed %u = shared out %u + uncollected %u + waiting %u\n", claimed, shared, uncollected, waiting);
    return claimed == shared + uncollected + waiting ? 0 : 1;
}
