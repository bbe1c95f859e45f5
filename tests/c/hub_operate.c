// Whole operations as C sees them: asks, give-ups and give-backs on a hub with radios and without,
// with a house's own kinds, the paper's last edge, and each way in which a run is refused.
#include <stdint.h>
#include <stdio.h>
#include <string.h>

// The opening is a frame as in a line: 01, K, n, or 02, K, n and K radios, and after either the kinds
// of the 32 parties, or nothing. An operation is 10, 12 or 13 and a party. 0 done; 2, 3, 12 or 14 to
// 17 not opened, by the opening's refusal; 254 malformed operations, 255 no room. A slice is its
// address and its length.
uint8_t hub_operate(const uint8_t *opening, size_t opening_len, const uint8_t *operations,
                    size_t operations_len, uint8_t *out, size_t out_len);

static const uint8_t operations[] = {
    0x12, 30, 0x10, 0,  0x10, 30, 0x10, 5, 0x10, 6, 0x10, 7,  0x12, 6, 0x13, 30, 0x10, 30, 0x12, 30,
    0x10, 31, 0x13, 0,  0x10, 7,  0x12, 7, 0x13, 0, 0x10, 30, 0x13, 7, 0x13, 30, 0x13, 5,
};

// code, woken party, steps; with K 2 and n 31
static const uint8_t answers[] = {
    9,    255, 0, // kind 3, and does not wait
    0x20, 255, 1, //
    0x20, 255, 1, // 0 and 30 hold
    0x20, 255, 3, //
    0x20, 255, 3, //
    0x20, 255, 3, // 5, 6, 7 wait
    0x20, 255, 2, // 6 leaves the middle of the line
    0x20, 5,   3, // 0 and 5 hold, 7 waits
    0x20, 255, 3, // and 30 behind it
    10,   255, 0, // kind 3
    4,    255, 0, //
    0x20, 7,   3, // 5 and 7 hold, 30 waits
    5,    255, 0, //
    9,    255, 0, //
    11,   255, 0, //
    5,    255, 0, //
    0x20, 30,  3, // 5 and 30 hold
    0x20, 255, 1, //
    0x20, 255, 1, // nobody holds
};

static const uint8_t radio_operations[] = {
    0x10, 1, 0x10, 2, 0x10, 0, 0x12, 2, 0x13, 1, 0x13, 1, 0x13, 0, 0x10, 2,
};

// with K 1 and n 3
static const uint8_t radio_answers[] = {
    0x20, 255, 2, // 21 and 36
    0x20, 255, 3, //
    0x20, 255, 3, // 2 and 0 wait
    0x20, 255, 2, //
    0x20, 0,   3, // the radio goes along
    11,   255, 0, //
    0x20, 255, 2, // 26 and 38
    0x20, 255, 2, //
};

static const uint8_t kind_operations[] = {0x10, 1, 0x10, 0, 0x10, 2, 0x12, 0, 0x12, 2, 0x13, 1};

// with K 1 and n 3, and kind 3 at party 0, then at party 2
static const uint8_t kind_answers[2][18] = {
    {0x20, 255, 1, 0x20, 255, 3, 0x20, 255, 3, 10, 255, 0, 0x20, 255, 2, 0x20, 0, 3},
    {0x20, 255, 1, 0x20, 255, 3, 0x20, 255, 3, 0x20, 255, 2, 10, 255, 0, 0x20, 2, 3},
};

static int failures = 0;

// A run gives the code, the answers, and leaves the rest of the buffer as it was.
static void expect(const char *name, const uint8_t *opening, size_t opening_len,
                   const uint8_t *made, size_t made_len, size_t room, uint8_t code,
                   const uint8_t *expected, size_t written) {
    uint8_t out[128], want[128];
    memset(out, 0xAA, sizeof out);
    memset(want, 0xAA, sizeof want);
    memcpy(want, expected, written);
    uint8_t got = hub_operate(opening, opening_len, made, made_len, out, room);
    if (got != code || memcmp(out, want, sizeof out) != 0) {
        printf("FAILED: %s: code %u\n", name, got);
        failures++;
    }
}

// Half an operation and no room after an opening that is refused: the opening comes first.
static void refused(const char *name, const uint8_t *opening, size_t opening_len, uint8_t code) {
    expect(name, opening, opening_len, operations, 3, 0, code, answers, 0);
}

// K 1, n 3: party 0 holds, 1 waits, 2 gives up so many waits and asks once more; then party 0 gives
// back, and 2 asks again.
static void edge(const char *name, size_t given_up, const uint8_t *last_three) {
    static uint8_t made[2 * 520], out[3 * 520];
    size_t count = 0;
    const uint8_t first[] = {0x10, 0, 0x10, 1}, wait[] = {0x10, 2, 0x12, 2};
    const uint8_t last[] = {0x10, 2, 0x13, 0, 0x10, 2};
    memcpy(made, first, sizeof first);
    count += 2;
    for (size_t at = 0; at < given_up; at++, count += 2) {
        memcpy(made + 2 * count, wait, sizeof wait);
    }
    memcpy(made + 2 * count, last, sizeof last);
    const uint8_t opening[] = {1, 1, 3}, pair[] = {0x20, 255, 3, 0x20, 255, 2};
    uint8_t got = hub_operate(opening, sizeof opening, made, 2 * (count + 3), out, sizeof out);
    int wrong = got != 0 || memcmp(out + 3 * count, last_three, 9) != 0;
    for (size_t at = 2; at < count; at += 2) {
        wrong |= memcmp(out + 3 * at, pair, sizeof pair) != 0;
    }
    if (wrong) {
        printf("FAILED: %s: code %u\n", name, got);
        failures++;
    }
}

// The first bytes of an opening in `frame`, and so many kinds after them, all the same but for one
// party's. How long it then is.
static uint8_t frame[3 + 32 + 255];

static size_t opening(const uint8_t *first, size_t first_len, size_t kinds, uint8_t kind,
                      size_t party, uint8_t other) {
    memcpy(frame, first, first_len);
    memset(frame + first_len, kind, kinds);
    if (party < kinds) {
        frame[first_len + party] = other;
    }
    return first_len + kinds;
}

#define FRAME(...) (const uint8_t[]){__VA_ARGS__}, sizeof((const uint8_t[]){__VA_ARGS__})

int main(void) {
    size_t all = sizeof operations, room = sizeof answers;
    size_t radio_all = sizeof radio_operations, radio_room = sizeof radio_answers;
    expect("without radios", FRAME(1, 2, 31), operations, all, room, 0, answers, room);
    expect("more room than needed", FRAME(1, 2, 31), operations, all, 128, 0, answers, room);
    expect("no operation", FRAME(1, 2, 31), operations, 0, 0, 0, answers, 0);
    expect("with radios", FRAME(2, 1, 3, 0xA7), radio_operations, radio_all, radio_room, 0,
           radio_answers, radio_room);
    expect("no operation with radios", FRAME(2, 1, 1, 0), operations, 0, 0, 0, answers, 0);
    edge("254 waits given up", 254, (const uint8_t[]){0x20, 255, 3, 0x20, 1, 3, 5, 255, 0});
    edge("255 waits given up", 255, (const uint8_t[]){7, 255, 0, 0x20, 1, 3, 0x20, 255, 3});
    refused("no permits", FRAME(1, 0, 3), 2);
    refused("33 permits and 33 parties", FRAME(1, 33, 33), 2);
    refused("33 parties", FRAME(1, 1, 33), 3);
    refused("no parties", FRAME(1, 32, 0), 3);
    refused("no permits and no radios", FRAME(2, 0, 0), 2);
    refused("no parties, and two radios alike", FRAME(2, 2, 0, 7, 7), 3);
    refused("two radios alike", FRAME(2, 3, 3, 7, 0, 7), 14);
    refused("one radio too few", FRAME(2, 2, 3, 7), 12);
    refused("one radio too many, which is a kind", FRAME(2, 2, 3, 7, 8, 9), 15);
    refused("an empty opening", operations, 0, 12);
    refused("an opening cut short", FRAME(1, 1), 12);
    refused("an unknown opening", FRAME(3, 1, 3), 12);
    refused("an operation for an opening", FRAME(0x10, 0), 12);
    uint8_t most[36] = {2, 33, 33};
    refused("33 radios, all alike, and 33 parties", most, sizeof most, 2);
    most[1] = 32;
    refused("33 parties, 32 radios alike and a kind", most, sizeof most, 3);
    most[2] = 32;
    refused("32 radios alike", most, sizeof most - 1, 14);
    for (uint8_t at = 0; at < 32; at++) {
        most[3 + at] = 200 - at;
    }
    expect("32 radios", most, sizeof most - 1, FRAME(0x10, 31), 3, 0, FRAME(0x20, 255, 2));
    size_t kind_all = sizeof kind_operations, kind_room = sizeof kind_answers[0], len;
    for (size_t at = 0; at < 2; at++) {
        len = opening(FRAME(1, 1, 3), 32, 0, 2 * at, 3);
        expect("kind 3", frame, len, kind_operations, kind_all, kind_room, 0, kind_answers[at],
               kind_room);
    }
    len = opening(FRAME(1, 2, 31), 32, 1, 0, 0);
    memset(frame + 3, 0, 8);
    memset(frame + 3 + 28, 2, 2);
    memset(frame + 3 + 30, 3, 2);
    expect("the built-in kinds", frame, len, operations, all, room, 0, answers, room);
    len = opening(FRAME(2, 1, 3, 0xA7), 32, 1, 31, 0);
    expect("kinds and a radio", frame, len, radio_operations, radio_all, radio_room, 0, radio_answers,
           radio_room);
    len = opening(most, sizeof most - 1, 32, 2, 9, 0);
    expect("32 radios and 32 kinds", frame, len, FRAME(0x10, 31), 3, 0, FRAME(0x20, 255, 2));
    refused("one radio too few, and no kinds", frame, 3 + 31, 12);
    refused("one kind too few", frame, len - 1, 15);
    refused("one kind", frame, opening(FRAME(1, 1, 3), 1, 0, 0, 0), 15);
    refused("31 kinds", frame, opening(FRAME(1, 1, 3), 31, 0, 0, 0), 15);
    refused("33 kinds", frame, opening(FRAME(1, 1, 3), 33, 0, 0, 0), 15);
    refused("255 kinds", frame, opening(FRAME(2, 1, 3, 7), 255, 0, 0, 0), 15);
    refused("a kind of party 0 that there is not", frame, opening(FRAME(1, 1, 3), 32, 0, 0, 4), 16);
    refused("a kind of party 3 that there is not", frame, opening(FRAME(1, 1, 3), 32, 0, 3, 4), 16);
    refused("a kind of party 31 that there is not", frame, opening(FRAME(2, 1, 3, 7), 32, 0, 31, 255),
            16);
    refused("no desk", frame, opening(FRAME(1, 1, 3), 32, 1, 0, 2), 17);
    refused("no desk, a radio 0", frame, opening(FRAME(2, 1, 3, 0), 32, 3, 0, 1), 17);
    refused("no permits, one kind", frame, opening(FRAME(1, 0, 0), 1, 4, 0, 4), 2);
    refused("no parties, no desk", frame, opening(FRAME(1, 1, 0), 32, 4, 0, 4), 3);
    refused("radios alike, one kind", frame, opening(FRAME(2, 2, 3, 7, 7), 1, 4, 0, 4), 14);
    refused("33 kinds that there are not", frame, opening(FRAME(1, 1, 3), 33, 4, 0, 4), 15);
    refused("no desk, and a kind that there is not", frame, opening(FRAME(1, 1, 3), 32, 1, 31, 4), 16);
    // malformed comes before no room
    expect("half an operation", FRAME(1, 2, 31), operations, all - 1, 0, 254, answers, 0);
    expect("one byte", FRAME(1, 2, 31), operations, 1, room, 254, answers, 0);
    expect("a code too low", FRAME(1, 2, 31), FRAME(0x0F, 0), 0, 254, answers, 0);
    expect("a step", FRAME(1, 2, 31), FRAME(0x10, 0, 0x11, 0), 0, 254, answers, 0);
    expect("a radio asked for", FRAME(2, 1, 3, 7), FRAME(0x10, 0, 0x14, 0), room, 254, answers, 0);
    expect("a code too high", FRAME(2, 1, 3, 7), FRAME(0x15, 0), room, 254, answers, 0);
    expect("one byte too little room", FRAME(1, 2, 31), operations, all, room - 1, 255, answers, 0);
    expect("no room", FRAME(1, 2, 31), operations, 2, 0, 255, answers, 0);
    expect("too little room with radios", FRAME(2, 1, 3, 0xA7), radio_operations, radio_all,
           radio_room - 1, 255, radio_answers, 0);
    return failures != 0;
}
