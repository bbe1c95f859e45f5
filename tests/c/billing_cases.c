// Bills worked out by hand from the paper: the code that bill_shares gives, and what it leaves for three parties in a
// buffer that held 7 everywhere.
#include <stdint.h>
#include <stdio.h>
#include <string.h>

uint8_t bill_shares(uint8_t parties, uint32_t fee, const uint8_t *lines, size_t lines_len,
                    uint8_t *shares, size_t shares_len);

enum { ROOM = 33 * 4 };

static const uint32_t LEFT = 0x07070707; // four bytes that nobody wrote
static int failures = 0;

static uint32_t number_at(const uint8_t *bytes) {
    return (uint32_t)bytes[0] << 24 | (uint32_t)bytes[1] << 16 | (uint32_t)bytes[2] << 8 | bytes[3];
}

// Lines are seven bytes each; a text literal has a 0 at its end that is none of them.
#define LINES(text) (const uint8_t *)(text), sizeof(text) - 1

static void in_room(size_t room, uint8_t parties, uint32_t fee, const uint8_t *lines, size_t lines_len,
                    uint8_t code, const int *of, const uint32_t *cents) {
    uint8_t shares[ROOM];
    memset(shares, 7, sizeof shares);
    uint8_t got = bill_shares(parties, fee, lines, lines_len, shares, room);
    int wrong = got != code;
    for (int at = 0; at < 3; at++) wrong |= number_at(shares + 4 * of[at]) != cents[at];
    // what is written ends with the last party
    for (size_t at = code == 0 ? 4 * (size_t)parties : 0; at < ROOM; at++) wrong |= shares[at] != 7;
    if (wrong) {
        printf("FAILED: %u parties, %u cents: code %u\n", parties, fee, got);
        failures++;
    }
}

// A bill with the buffer that it asks for: the shares of parties p, q and r.
#define BILL(parties, fee, lines, p, q, r, ...)                                                  \
    in_room(4 * (size_t)(parties), parties, fee, lines, 0, (const int[]){p, q, r},              \
            (const uint32_t[]){__VA_ARGS__})
#define REFUSED(room, parties, fee, lines, code)                                                 \
    in_room(room, parties, fee, lines, code, (const int[]){0, 1, 2}, (const uint32_t[]){LEFT, LEFT, LEFT})

// One link each for parties 0, 1 and 2: by 21, by 25, and by a 2A of party 0.
#define ONE_EACH                                                                                 \
    LINES("\x21\x00\xFF\xFF\xFF\xFF\xFF"                                                         \
          "\x25\x01\xFF\x00\x00\x00\x00"                                                         \
          "\x2A\x00\x02\x00\x00\x00\x01")

// One link for party 0, two for party 1, four for party 2.
#define ONE_TWO_FOUR                                                                             \
    LINES("\x21\x02\xFF\xFF\xFF\xFF\xFF"                                                         \
          "\x21\x01\xFF\xFF\xFF\xFF\xFF"                                                         \
          "\x2A\x01\x02\x00\x00\x00\x00"                                                         \
          "\x25\x02\xFF\x00\x00\x00\x01"                                                         \
          "\x2A\x00\x01\x00\x00\x00\x02"                                                         \
          "\x21\x00\xFF\xFF\xFF\xFF\xFF"                                                         \
          "\x2A\x01\x02\x00\x00\x00\x03")

// The lines of the paper's run, the closing line last: party 0 got the one link.
#define PAPER_RUN                                                                                \
    LINES("\x1F\xFF\xFF\xFF\xFF\xFF\xFF"                                                         \
          "\x20\x00\xFF\xFF\xFF\xFF\xFF"                                                         \
          "\x21\x00\xFF\xFF\xFF\xFF\xFF"                                                         \
          "\x20\x01\xFF\xFF\xFF\xFF\xFF"                                                         \
          "\x22\x01\xFF\xFF\xFF\xFF\xFF"                                                         \
          "\x23\x01\xFF\x00\x00\x00\x00"                                                         \
          "\x24\x01\xFF\x00\x00\x00\x00"                                                         \
          "\x20\x00\xFF\xFF\xFF\xFF\xFF"                                                         \
          "\x27\x00\xFF\xFF\xFF\xFF\xFF"                                                         \
          "\x20\x01\xFF\xFF\xFF\xFF\xFF"                                                         \
          "\x2F\x01\xFF\xFF\xFF\xFF\xFF"                                                         \
          "\x28\x00\xFF\x00\x00\x00\x00"                                                         \
          "\x2B\x00\xFF\x00\x00\x00\x00"                                                         \
          "\x33\x01\xFF\x00\x00\x00\x00"                                                         \
          "\x7E\x00\x00\x00\x00\x00\x01")

// Equal remainders: the lower party first. Then others: the largest first.
static void left_over(void) {
    BILL(3, 99, ONE_EACH, 0, 1, 2, 33, 33, 33);
    BILL(3, 100, ONE_EACH, 0, 1, 2, 34, 33, 33);
    BILL(3, 101, ONE_EACH, 0, 1, 2, 34, 34, 33);
    // 1/7, 2/7 and 4/7 of 1, 8, 10 and 14 cents
    BILL(3, 1, ONE_TWO_FOUR, 0, 1, 2, 0, 0, 1);
    BILL(3, 8, ONE_TWO_FOUR, 0, 1, 2, 1, 2, 5);
    BILL(3, 10, ONE_TWO_FOUR, 0, 1, 2, 1, 3, 6);
    BILL(3, 14, ONE_TWO_FOUR, 0, 1, 2, 2, 4, 8);
    BILL(3, 0, ONE_TWO_FOUR, 0, 1, 2, 0, 0, 0);
    BILL(3, 999999, ONE_EACH, 0, 1, 2, 333333, 333333, 333333);
    BILL(3, 1000000, ONE_EACH, 0, 1, 2, 333334, 333333, 333333);
}

// Nobody got a link: no line; lines that give none; parties that are not below n.
static void nobody(void) {
    BILL(3, 5, LINES(""), 0, 1, 2, 2, 2, 1);
    BILL(3, 5,
         LINES("\x20\x00\xFF\xFF\xFF\xFF\xFF\x26\x01\xFF\xFF\xFF\xFF\xFF\x03\x01\x01\x01\x01\x01\x01"), 0, 1, 2, 2,
         2, 1);
    BILL(3, 5,
         LINES("\x21\x03\x00\xFF\xFF\xFF\xFF\x25\xFF\x01\x00\x00\x00\x00\x2A\x02\x20\x00\x00\x00\x00"), 0, 1, 2, 2,
         2, 1);
    BILL(32, 33, LINES(""), 0, 1, 31, 2, 1, 1);
    BILL(32, 31, LINES(""), 0, 30, 31, 1, 1, 0);
    BILL(1, 7, LINES(""), 0, 1, 2, 7, LEFT, LEFT);
}

// One party with all, party 31 too; of one party, whatever the others got; the caller of a 2A gets nothing; a party
// byte and a woken party are each read in its place.
static void one(void) {
    BILL(3, 999999, LINES("\x21\x01\xFF\xFF\xFF\xFF\xFF\x25\x01\xFF\x00\x00\x00\x00"), 0, 1, 2, 0, 999999, 0);
    BILL(32, 1000000, LINES("\x21\x1F\xFF\xFF\xFF\xFF\xFF"), 0, 30, 31, 0, 0, 1000000);
    BILL(1, 12, LINES("\x21\x01\xFF\xFF\xFF\xFF\xFF\x21\x00\xFF\xFF\xFF\xFF\xFF"), 0, 1, 2, 12, LEFT, LEFT);
    BILL(2, 9, LINES("\x2A\x00\x01\x00\x00\x00\x00"), 0, 1, 2, 0, 9, LEFT);
    BILL(2, 9, LINES("\x21\x00\x01\x00\x00\x00\x00"), 0, 1, 2, 9, 0, LEFT);
    BILL(2, 9, LINES("\x25\x01\x00\x00\x00\x00\x00"), 0, 1, 2, 0, 9, LEFT);
    BILL(3, 250, PAPER_RUN, 0, 1, 2, 250, 0, 0);
}

// A rest of six bytes, of one, of six again, and then the whole line.
static void rest(void) {
    BILL(2, 10, LINES("\x21\x00\xFF\xFF\xFF\xFF"), 0, 1, 2, 5, 5, LEFT);
    BILL(2, 10, LINES("\x21\x00\xFF\xFF\xFF\xFF\xFF\x21"), 0, 1, 2, 10, 0, LEFT);
    BILL(2, 10, LINES("\x21\x00\xFF\xFF\xFF\xFF\xFF\x21\x01\xFF\xFF\xFF\xFF"), 0, 1, 2, 10, 0, LEFT);
    BILL(2, 10, LINES("\x21\x00\xFF\xFF\xFF\xFF\xFF\x21\x01\xFF\xFF\xFF\xFF\xFF"), 0, 1, 2, 5, 5, LEFT);
}

// 3, also where 22 applies; 22 for the fee; 255 for another buffer, after both.
static void refused(void) {
    REFUSED(0, 0, 100, ONE_EACH, 3);
    REFUSED(ROOM, 33, 100, ONE_EACH, 3);
    REFUSED(ROOM, 255, 1000001, ONE_EACH, 3);
    REFUSED(12, 3, 1000001, ONE_EACH, 22);
    REFUSED(128, 32, 4294967295u, LINES(""), 22);
    REFUSED(11, 3, 100, ONE_EACH, 255);
    REFUSED(13, 3, 100, ONE_EACH, 255);
    REFUSED(0, 3, 100, ONE_EACH, 255);
    REFUSED(5, 0, 100, ONE_EACH, 3);
    REFUSED(5, 3, 1000001, ONE_EACH, 22);
}

int main(void) {
    left_over();
    nobody();
    one();
    rest();
    refused();
    return failures != 0;
}
