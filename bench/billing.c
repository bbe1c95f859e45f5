// One bill of PARTIES parties over LINES lines with a CODE (in base ten; 0 for one of each of eight
// codes in turn), for bench/billing to count: PARTIES LINES CODE.
#include <stdint.h>
#include <stdio.h>
#include <stdlib.h>

uint8_t bill_shares(uint8_t parties, uint32_t fee, const uint8_t *lines, size_t lines_len,
                    uint8_t *shares, size_t shares_len);

int main(int count_of_words, char **words) {
    static const uint8_t codes[8] = {0x20, 0x21, 0x22, 0x25, 0x2A, 0x26, 0x24, 0x27};
    static uint8_t shares[128];
    if (count_of_words != 4) return 2;
    int parties = atoi(words[1]), lines = atoi(words[2]), code = atoi(words[3]);
    uint8_t *bytes = calloc(lines + 1, 7);
    if (bytes == NULL) return 2;
    for (int i = 0; i < lines; i++) {
        uint8_t *line = bytes + 7 * i;
        line[0] = code == 0 ? codes[i * 5 % 8] : code;
        line[1] = i * i % parties;
        line[2] = line[0] == 0x2A ? i % parties : 255;
    }
    uint8_t got = bill_shares(parties, 999999, bytes, 7 * (size_t)lines, shares, 4 * (size_t)parties);
    if (got != 0) printf("refused by %d\n", got);
    free(bytes);
    return got;
}
