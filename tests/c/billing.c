// The monthly bill from C: reads what the schedule program printed and prints each party's share in
// cents. Usage: billing PARTIES FEE <printed
#include <stdint.h>
#include <stdio.h>
#include <stdlib.h>

// Gives 0, and writes each share in four bytes, high byte first; or writes nothing and gives 3 (not
// 1 to 32 parties), 22 (above 1,000,000 cents, or more than 100,000,000 lines), 255 (shares_len is
// not four times the parties).
uint8_t bill_shares(uint8_t parties, uint32_t fee, const uint8_t *lines, size_t lines_len,
                    uint8_t *shares, size_t shares_len);

static int digit(int c) {
    if ('0' <= c && c <= '9') return c - '0';
    if ('A' <= c && c <= 'F') return c - 'A' + 10;
    return -1;
}

int main(int count_of_words, char **words) {
    if (count_of_words != 3) {
        fprintf(stderr, "usage: billing PARTIES FEE <printed\n");
        return 2;
    }
    uint8_t parties = atoi(words[1]);
    uint32_t fee = strtoul(words[2], NULL, 10);

    // Each line is fourteen digits, seven bytes, the closing line too, which gives nobody a link.
    size_t len = 0, room = 1 << 16;
    uint8_t *lines = malloc(room);
    for (int c; lines != NULL && (c = getchar()) != EOF;) {
        if (c == '\n') continue;
        int high = digit(c), low = digit(getchar());
        if (high < 0 || low < 0) {
            fprintf(stderr, "that is not what the schedule program prints\n");
            return 2;
        }
        if (len == room) lines = realloc(lines, room *= 2);
        if (lines != NULL) lines[len++] = 16 * high + low;
    }
    if (lines == NULL) {
        fprintf(stderr, "no room\n");
        return 2;
    }

    uint8_t shares[4 * 255];
    uint8_t code = bill_shares(parties, fee, lines, len, shares, 4 * (size_t)parties);
    free(lines);
    if (code != 0) {
        printf("refused by %u\n", code);
        return 1;
    }
    for (int party = 0; party < parties; party++) {
        const uint8_t *s = shares + 4 * party;
        uint32_t cents = (uint32_t)s[0] << 24 | (uint32_t)s[1] << 16 | (uint32_t)s[2] << 8 | s[3];
        printf("party %d: %u cents\n", party, cents);
    }
    return 0;
}
