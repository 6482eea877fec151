/* The delivery book of one contract month: one session from a buffer to a buffer, or the page of the book after it, with the printed heat table of the coal price or a port's own; and the printed one.
   A factory's daily dispatch, shared among its holders: one list of calls from a buffer to a buffer.
   Link with crates/firmware/out/libfirmware.a, which `rt lib` in crates/firmware writes. */
#ifndef DELIVERY_H
#define DELIVERY_H

#include <stddef.h>
#include <stdint.h>

/* Room for the output of every session. */
#define DELIVERY_ROOM 848427

/* Runs the session of input's bytes and writes its output from the start of output, where later bytes stay as they were; returns how many bytes it wrote.
   An output of less than DELIVERY_ROOM bytes is refused: 0 is returned and nothing is written. An input above 65,536 bytes,
   and an empty one, print `no 26`. An accepted Measure (call 14: match, W, Q, M, S, F, A, and the vessel's due kilograms) prints `ok n` with n the kilograms
   weighed above the due ones + 500,000; its match, stage 1, is paid for when the due kilograms of its vessels, up to eight, add up to its own.
   An accepted Close (call 12: a budget of 0 to 1,023 balance tests) prints `ok pairs tests gap`: the pairs made after the first pass, the balance tests made,
   and a gap such that no pairing that empties every position left after that pass has fewer pairs than pairs less gap.
   In a receipts book Pay (call 13) funds a match, stage 5, and Hand over (call 17) then passes its receipts and pays its seller;
   a match of an overseas buyer with any ordinary receipt it puts in stage 6, awaiting auction, which Auction (call 18: match, winner, proceeds) ends.
   The two buffers must not overlap. */
size_t delivery_session(const uint8_t *input, size_t input_length, uint8_t *output, size_t output_length);

/* Room for every page: 4 + 32 + 256 + 256 lines of 41 bytes. */
#define DELIVERY_PAGE_ROOM 22468

/* Runs the session of input's bytes and writes the ledger page of the book after it, or `no n` where its line one is refused, from the start of output,
   where later bytes stay as they were; returns how many bytes it wrote. An output that is too short for them is refused: 0 is returned and nothing is
   written. The two buffers must not overlap. */
size_t delivery_page(const uint8_t *input, size_t input_length, uint8_t *output, size_t output_length);

/* The length of a port's own heat table: 8-byte numbers, most significant byte first, the count 1,701 and then the entries for heats 4,300 to 6,000, lowest first. */
#define DELIVERY_TABLE_LENGTH 13616

/* The same two with a heat table of the port's own, from the bytes of table: from heat 4,300 on, step 2 of the coal price is then the match's price times the heat's entry,
   divided by 4,950,000,000, an exact half to the even fen. A table of another length or count, or with an entry outside 1..5,400,000,000 or below the one before,
   is refused: `no 31` and a newline are written and nothing else, and 6 is returned; 0, with nothing written, where the output has no room for that.
   The buffers must not overlap. */
size_t delivery_session_by_table(const uint8_t *table, size_t table_length, const uint8_t *input, size_t input_length, uint8_t *output, size_t output_length);
size_t delivery_page_by_table(const uint8_t *table, size_t table_length, const uint8_t *input, size_t input_length, uint8_t *output, size_t output_length);

/* The length of the printed heat table: 1,701 lines of 11 bytes. */
#define DELIVERY_HEAT_TABLE_ROOM 18711

/* Writes the printed heat table from the start of output, where later bytes stay as they were: for each heat from 4,300 to 6,000, lowest first, the numerator of its price over
   4,950,000,000, ten decimal digits and a newline. Step 2 of the coal price at these heats is the match's price times the numerator, divided by 4,950,000,000, an exact
   half to the even fen. Returns DELIVERY_HEAT_TABLE_ROOM. A shorter output is refused: 0 is returned and nothing is written. */
size_t delivery_heat_table(uint8_t *output, size_t output_length);

/* Room for the answers to every list of input_length bytes: 82 for each byte, and 24. */
#define DELIVERY_DISPATCH_ROOM(input_length) (82 * (size_t)(input_length) + 24)

/* Runs a list of a factory's calls, the lines of input's bytes, and writes its answers, a line each, from the start of output, where later bytes stay as they were; returns how many bytes it wrote.
   Line one is `0 daily`, the units that the factory loads a day, 1 to 1,000. Then `1 claim` arrives behind the other holders, up to 32, with 0 to 1,000 units to collect, `2 place` leaves, a holder named by its place
   in order of appointment, counted from 0, and `3` is a day: its units go round the holders one at a time, from the first, past those who are served.
   An accepted line one, arrival or departure prints `ok 0`, a day `ok` and each holder's share. A refusal prints `no n`: 6 no holder has that place, 8 the daily number or the claim is out of range,
   33 there are 32 holders, 26 the line is not of the form; it changes nothing, and only that of line one ends the output. An input above 65,536 bytes, and an empty one, print `no 26`.
   An output of less than DELIVERY_DISPATCH_ROOM(input_length) bytes is refused: 0 is returned and nothing is written. The two buffers must not overlap. */
size_t delivery_dispatch(const uint8_t *input, size_t input_length, uint8_t *output, size_t output_length);

#endif
