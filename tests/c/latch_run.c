// The latch as C sees it: two runs worked out by hand, in which every answer occurs, document 01's
// last edge, and each way in which a run is refused.
#include <stdint.h>
#include <stdio.h>
#include <string.h>

// Opens with N (count) and n (parties). A call is 10, 11, 12 or 13 and a party: await, step, give
// up, count down. 0 done; 3 or 18 not opened, by the opening's refusal; 254 malformed calls, 255 no
// room. A slice is its address and its length.
uint8_t latch_run(uint8_t count, uint8_t parties, const uint8_t *calls, size_t calls_len,
                  uint8_t *out, size_t out_len);

#define NONE 0xFFFFFFFF
#define MOST 2100

// A call, and its answer: the code, the woken party, the number.
typedef struct {
    uint8_t call, party, code, woken;
    uint32_t number;
} Row;

// N 2, n 8
static const Row run[] = {
    {0x10, 0, 0x20, 255, NONE}, {0x11, 0, 0x22, 255, NONE},
    {0x11, 0, 0x22, 255, NONE}, // one waiter
    {0x11, 0, 0x23, 255, 0},    {0x11, 0, 0x24, 255, 0},
    {0x10, 1, 0x20, 255, NONE}, {0x11, 1, 0x22, 255, NONE},
    {0x11, 1, 0x22, 255, NONE}, // two
    {0x11, 1, 0x23, 255, 1},    {0x11, 1, 0x24, 255, 1},
    {0x10, 2, 0x20, 255, NONE}, {0x11, 2, 0x22, 255, NONE},
    {0x11, 2, 0x22, 255, NONE}, // three
    {0x11, 2, 0x23, 255, 2},    {0x11, 2, 0x24, 255, 2},
    {0x10, 3, 0x20, 255, NONE}, {0x11, 3, 0x22, 255, NONE},
    {0x11, 3, 0x22, 255, NONE}, // four; 3 is unnumbered
    {0x10, 4, 0x20, 255, NONE},
    {0x11, 4, 0x22, 255, NONE}, // 4 is raising
    {0x10, 7, 0x20, 255, NONE}, // 7 has asked
    {0x12, 4, 0x20, 255, NONE},
    {0x12, 4, 9, 255, NONE}, // early, once
    {0x12, 0, 0x20, 255, NONE},
    {0x11, 0, 0x2E, 255, NONE}, // three
    {0x13, 5, 0x20, 255, NONE}, {0x13, 6, 0x20, 255, NONE},
    {0x13, 5, 5, 255, NONE},
    {0x11, 5, 0x26, 255, NONE}, // the count is 1
    {0x11, 6, 0x27, 255, NONE}, // it is 0: three hand-overs, for 1, 2 and 3
    {0x11, 4, 0x21, 255, NONE}, {0x11, 7, 0x21, 255, NONE},
    {0x12, 4, 9, 255, NONE},    {0x11, 6, 0x28, 255, 0},
    {0x11, 6, 0x2B, 255, 0}, // 0 is leaving; two left
    {0x11, 0, 0x31, 255, 0}, // 0 has one to pass on
    {0x12, 1, 0x20, 255, NONE},
    {0x11, 1, 0x2F, 255, NONE}, // after the mark
    {0x11, 6, 0x28, 255, 1},    {0x11, 1, 0x32, 255, 1},
    {0x11, 6, 0x2D, 255, 1}, // 1's own is dropped; one left
    {0x11, 0, 0x28, 255, 2},    {0x11, 6, 0x28, 255, 3},
    {0x11, 6, 0x29, 255, 3}, // 3 has drawn no number yet
    {0x11, 0, 0x2A, 2, 2},
    {0x12, 3, 0x20, 255, NONE}, // early, but let go before it would wait
    {0x11, 3, 0x23, 255, 3},    {0x11, 3, 0x25, 255, 3},
    {0x11, 0, 8, 255, NONE},    {0x11, 3, 8, 255, NONE},
    {0x11, 6, 8, 255, NONE}, // all are at rest
    {0x13, 3, 0x20, 255, NONE},
    {0x11, 3, 0x26, 255, NONE}, // the count stays 0
    {0x10, 3, 0x20, 255, NONE}, {0x11, 3, 0x21, 255, NONE},
    {0x13, 8, 4, 255, NONE},
};

// N 1, n 32; parties 30 and 31 may not give up
static const Row kept[] = {
    {0x10, 0, 0x20, 255, NONE},  {0x11, 0, 0x22, 255, NONE},
    {0x11, 0, 0x22, 255, NONE},  {0x11, 0, 0x23, 255, 0},
    {0x11, 0, 0x24, 255, 0},     {0x10, 1, 0x20, 255, NONE},
    {0x11, 1, 0x22, 255, NONE},  {0x11, 1, 0x22, 255, NONE},
    {0x11, 1, 0x23, 255, 1},     {0x11, 1, 0x24, 255, 1},
    {0x10, 31, 0x20, 255, NONE}, {0x12, 31, 10, 255, NONE},
    {0x11, 31, 0x22, 255, NONE}, {0x12, 31, 10, 255, NONE},
    {0x11, 31, 0x22, 255, NONE}, {0x11, 31, 0x23, 255, 2},
    {0x11, 31, 0x24, 255, 2},    {0x12, 31, 10, 255, NONE},
    {0x12, 0, 0x20, 255, NONE},  {0x11, 0, 0x2E, 255, NONE},
    {0x13, 29, 0x20, 255, NONE},
    {0x11, 29, 0x27, 255, NONE}, // two hand-overs, for 1 and 31
    {0x11, 29, 0x28, 255, 0},    {0x11, 0, 0x30, 255, 0},
    {0x11, 29, 0x2C, 255, 0}, // still two
    {0x12, 1, 0x20, 255, NONE},  {0x11, 29, 0x28, 255, 1},
    {0x11, 29, 0x2B, 255, 1}, // one left
    {0x11, 1, 0x2F, 255, NONE},
    {0x11, 1, 0x33, 255, 1}, // dropped
    {0x11, 29, 0x28, 255, 2},    {0x11, 29, 0x2A, 31, 2},
    {0x11, 29, 8, 255, NONE},    {0x11, 1, 8, 255, NONE},
    {0x11, 31, 8, 255, NONE},
};

#define LEN(rows) (sizeof(rows) / sizeof *(rows))

static int failures = 0;

static void calls_of(const Row *rows, size_t count, uint8_t *calls) {
    for (size_t at = 0; at < count; at++) {
        calls[2 * at] = rows[at].call;
        calls[2 * at + 1] = rows[at].party;
    }
}

static void answers_of(const Row *rows, size_t count, uint8_t *answers) {
    for (size_t at = 0; at < count; at++, answers += 7) {
        const Row row = rows[at];
        const uint8_t answer[7] = {row.code,         row.party,        row.woken, row.number >> 24,
                                   row.number >> 16, row.number >> 8, row.number};
        memcpy(answers, answer, 7);
    }
}

// A run gives the result, so many of the rows' answers, and leaves the rest of the buffer alone.
static void expect(const char *name, uint8_t count, uint8_t parties, const Row *rows,
                   size_t made_len, size_t room, uint8_t result, size_t answered) {
    static uint8_t made[2 * MOST + 1], out[7 * MOST], want[7 * MOST];
    calls_of(rows, (made_len + 1) / 2, made);
    memset(out, 0xAA, sizeof out);
    memset(want, 0xAA, sizeof want);
    answers_of(rows, answered, want);
    uint8_t got = latch_run(count, parties, made, made_len, out, room);
    if (got != result || memcmp(out, want, sizeof out) != 0) {
        size_t at = 0;
        while (at < sizeof out && out[at] == want[at]) {
            at++;
        }
        printf("FAILED: %s: result %u, call %zu\n", name, got, at / 7);
        failures++;
    }
}

// A run that is not begun: half a call and no room after an opening that is refused.
static void refused(const char *name, uint8_t count, uint8_t parties, uint8_t result) {
    expect(name, count, parties, run, 3, 0, result, 0);
}

// Document 01's last edge: party 1 waits, 2 gives up so many waits and awaits once more; then 0
// counts down to 0 and lets 1 go, whose place was the oldest.
static void edge(const char *name, uint32_t given_up, uint8_t next, uint8_t after) {
    static Row rows[MOST];
    size_t count = 0;
    for (uint32_t wait = 0; wait <= given_up; wait++) {
        const uint8_t party = wait == 0 ? 1 : 2;
        const Row all[] = {
            {0x10, party, 0x20, 255, NONE}, {0x11, party, 0x22, 255, NONE},
            {0x11, party, 0x22, 255, NONE}, {0x11, party, 0x23, 255, wait},
            {0x11, party, 0x24, 255, wait}, {0x12, party, 0x20, 255, NONE},
            {0x11, party, 0x2E, 255, NONE}, {0x11, party, 0x30, 255, wait},
        };
        const size_t made = wait == 0 ? 5 : LEN(all);
        memcpy(rows + count, all, made * sizeof *all);
        count += made;
    }
    const Row last[] = {
        {0x10, 2, next, 255, NONE},    {0x10, 0, 7, 255, NONE},    {0x13, 0, 0x20, 255, NONE},
        {0x11, 0, 0x27, 255, NONE},    {0x11, 0, 0x28, 255, 0},    {0x11, 0, 0x2A, 1, 0},
        {0x11, 0, 8, 255, NONE},       {0x10, 0, 0x20, 255, NONE}, {0x11, 0, 0x21, 255, NONE},
        {0x11, 2, after, 255, NONE},
    };
    memcpy(rows + count, last, sizeof last);
    count += LEN(last);
    expect(name, 1, 3, rows, 2 * count, 7 * count, 0, count);
}

int main(void) {
    size_t all = LEN(run);
    expect("the first run", 2, 8, run, 2 * all, 7 * all, 0, all);
    expect("more room than needed", 2, 8, run, 2 * all, 7 * all + 1, 0, all);
    expect("the second run", 1, 32, kept, 2 * LEN(kept), 7 * LEN(kept), 0, LEN(kept));
    expect("no call", 200, 32, run, 0, 0, 0, 0);
    expect("N 200", 200, 1, run, 6, 21, 0, 3);
    edge("254 waits given up", 254, 0x20, 0x21);
    edge("255 waits given up", 255, 7, 8);
    refused("N 0", 0, 8, 18);
    refused("N 201", 201, 8, 18);
    refused("N 255", 255, 32, 18);
    refused("n 0", 2, 0, 3);
    refused("n 33", 2, 33, 3);
    refused("N 0 and n 0", 0, 0, 3);
    refused("N 201 and n 255", 201, 255, 3);
    // malformed comes before no room
    expect("half a call", 2, 8, run, 2 * all - 1, 0, 254, 0);
    expect("one byte", 2, 8, run, 1, 7, 254, 0);
    const Row low[] = {{0x10, 0, 0, 0, 0}, {0x0F, 0, 0, 0, 0}}, high[] = {{0x14, 0, 0, 0, 0}};
    expect("a code too low", 2, 8, low, 4, 0, 254, 0);
    expect("a code too high", 2, 8, high, 2, 7, 254, 0);
    expect("one byte too little room", 2, 8, run, 2 * all, 7 * all - 1, 255, 0);
    expect("no room", 2, 8, run, 2, 0, 255, 0);
    return failures != 0;
}
