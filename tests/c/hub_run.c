// The hub as C sees it: the run of the paper, one with radios, some with a house's own kinds, and
// each way in which a run is refused.
#include <stdint.h>
#include <stdio.h>
#include <string.h>

// The opening is a frame as in a line: 01, K, n, or 02, K, n and K radios, and after either the kinds
// of the 32 parties, or nothing. 0 done; 2, 3, 12 or 14 to 17 not opened, by the opening's refusal;
// 254 malformed calls, 255 no room. A slice is its address and its length.
uint8_t hub_run(const uint8_t *opening, size_t opening_len, const uint8_t *calls, size_t calls_len,
                uint8_t *out, size_t out_len);

static const uint8_t calls[] = {
    0x10, 0, 0x11, 0, 0x10, 1, 0x11, 1, 0x11, 1, 0x11, 1, 0x13, 0,
    0x11, 0, 0x12, 1, 0x11, 1, 0x11, 0, 0x11, 0, 0x11, 1,
};

// code, party, woken party, number
static const uint8_t answers[] = {
    0x20, 0, 255, 255, 255, 255, 255, //
    0x21, 0, 255, 255, 255, 255, 255, //
    0x20, 1, 255, 255, 255, 255, 255, //
    0x22, 1, 255, 255, 255, 255, 255, //
    0x23, 1, 255, 0,   0,   0,   0,   //
    0x24, 1, 255, 0,   0,   0,   0,   //
    0x20, 0, 255, 255, 255, 255, 255, //
    0x27, 0, 255, 255, 255, 255, 255, //
    0x20, 1, 255, 255, 255, 255, 255, //
    0x2F, 1, 255, 255, 255, 255, 255, //
    0x28, 0, 255, 0,   0,   0,   0,   //
    0x2B, 0, 255, 0,   0,   0,   0,   //
    0x33, 1, 255, 0,   0,   0,   0,   //
};

// with radios A7 and A6: party 0 puts back the first, party 1 gets the second
static const uint8_t radio_calls[] = {
    0x10, 0, 0x11, 0, 0x11, 0, 0x14, 0, 0x13, 0, 0x11, 0, 0x10, 1, 0x11, 1,
    0x11, 1, 0x14, 1, 0x10, 2, 0x11, 2, 0x11, 2, 0x11, 0, 0x14, 0, 0x14, 3,
};

static const uint8_t radio_answers[] = {
    0x20, 0, 255, 255, 255, 255, 255,  //
    0x21, 0, 255, 255, 255, 255, 255,  //
    0x36, 0, 255, 255, 255, 255, 255,  //
    0x39, 0, 255, 0,   0,   0,   0xA7, //
    0x20, 0, 255, 255, 255, 255, 255,  //
    0x26, 0, 255, 255, 255, 255, 255,  //
    0x20, 1, 255, 255, 255, 255, 255,  //
    0x21, 1, 255, 255, 255, 255, 255,  //
    0x36, 1, 255, 255, 255, 255, 255,  //
    0x39, 1, 255, 0,   0,   0,   0xA6, //
    0x20, 2, 255, 255, 255, 255, 255,  //
    0x21, 2, 255, 255, 255, 255, 255,  //
    0x37, 2, 255, 255, 255, 255, 255,  //
    0x38, 0, 255, 255, 255, 255, 255,  //
    0x39, 0, 255, 255, 255, 255, 255,  //
    0x04, 3, 255, 255, 255, 255, 255,  //
};

// parties 0 and 2 give up, one before its wait and in it, one before only
static const uint8_t kind_calls[] = {
    0x10, 1, 0x11, 1, 0x10, 0, 0x12, 0, 0x11, 0, 0x11, 0, 0x11, 0, 0x12, 0, 0x10, 2, 0x12, 2,
};

// with kind 3 at party 0, then at party 2
static const uint8_t kind_answers[2][70] = {
    {
        0x20, 1, 255, 255, 255, 255, 255, //
        0x21, 1, 255, 255, 255, 255, 255, //
        0x20, 0, 255, 255, 255, 255, 255, //
        10,   0, 255, 255, 255, 255, 255, //
        0x22, 0, 255, 255, 255, 255, 255, //
        0x23, 0, 255, 0,   0,   0,   0,   //
        0x24, 0, 255, 0,   0,   0,   0,   //
        10,   0, 255, 255, 255, 255, 255, //
        0x20, 2, 255, 255, 255, 255, 255, //
        0x20, 2, 255, 255, 255, 255, 255, //
    },
    {
        0x20, 1, 255, 255, 255, 255, 255, //
        0x21, 1, 255, 255, 255, 255, 255, //
        0x20, 0, 255, 255, 255, 255, 255, //
        0x20, 0, 255, 255, 255, 255, 255, //
        0x22, 0, 255, 255, 255, 255, 255, //
        0x23, 0, 255, 0,   0,   0,   0,   //
        0x24, 0, 255, 0,   0,   0,   0,   //
        9,    0, 255, 255, 255, 255, 255, // it is giving up already
        0x20, 2, 255, 255, 255, 255, 255, //
        10,   2, 255, 255, 255, 255, 255, //
    },
};

static int failures = 0;

// A run gives the code, the answers, and leaves the rest of the buffer as it was.
static void expect(const char *name, const uint8_t *opening, size_t opening_len,
                   const uint8_t *made, size_t made_len, size_t room, uint8_t code,
                   const uint8_t *expected, size_t written) {
    uint8_t out[128], want[128];
    memset(out, 0xAA, sizeof out);
    memset(want, 0xAA, sizeof want);
    memcpy(want, expected, written);
    uint8_t got = hub_run(opening, opening_len, made, made_len, out, room);
    if (got != code || memcmp(out, want, sizeof out) != 0) {
        printf("FAILED: %s: code %u\n", name, got);
        failures++;
    }
}

// The run of the paper after an opening that is refused.
static void refused(const char *name, const uint8_t *opening, size_t opening_len, uint8_t code) {
    expect(name, opening, opening_len, calls, sizeof calls, sizeof answers, code, answers, 0);
}

// The first bytes of an opening in `frame`, and so many kinds after them, all the same but for one
// party's. How long it then is.
static uint8_t frame[3 + 32 + 255];

static size_t opening(const uint8_t *first, size_t first_len, size_t kinds, uint8_t kind,
                      size_t party, uint8_t other) {
    memcpy(frame, first, first_len);
    memset(frame + first_len, kind, kinds);
    if (party < kinds) {
        frame[first_len + party] = other;
    }
    return first_len + kinds;
}

#define FRAME(...) (const uint8_t[]){__VA_ARGS__}, sizeof((const uint8_t[]){__VA_ARGS__})

int main(void) {
    size_t all = sizeof calls, room = sizeof answers;
    size_t radio_all = sizeof radio_calls, radio_room = sizeof radio_answers;
    expect("the run of the paper", FRAME(1, 1, 3), calls, all, room, 0, answers, room);
    expect("more room than needed", FRAME(1, 1, 3), calls, all, 128, 0, answers, room);
    expect("no call", FRAME(1, 1, 3), calls, 0, 0, 0, answers, 0);
    expect("radios", FRAME(2, 2, 3, 0xA7, 0xA6), radio_calls, radio_all, radio_room, 0,
           radio_answers, radio_room);
    expect("radios and no call", FRAME(2, 1, 1, 0), calls, 0, 0, 0, answers, 0);
    refused("no permits", FRAME(1, 0, 3), 2);
    refused("33 permits and 33 parties", FRAME(1, 33, 33), 2);
    refused("33 parties", FRAME(1, 1, 33), 3);
    refused("no permits and no radios", FRAME(2, 0, 0), 2);
    refused("no parties, and two radios alike", FRAME(2, 2, 0, 7, 7), 3);
    refused("two radios alike", FRAME(2, 3, 3, 7, 0, 7), 14);
    refused("one radio too few", FRAME(2, 2, 3, 7), 12);
    refused("one radio too many, which is a kind", FRAME(2, 2, 3, 7, 8, 9), 15);
    refused("radios without an n", FRAME(2, 0), 12);
    refused("nothing but a code", FRAME(2), 12);
    refused("an empty opening", calls, 0, 12);
    refused("an opening cut short", FRAME(1, 1), 12);
    refused("an unknown opening", FRAME(3, 1, 3), 12);
    refused("a call for an opening", FRAME(0x10, 0), 12);
    uint8_t most[36] = {2, 33, 33};
    refused("33 radios, all alike, and 33 parties", most, sizeof most, 2);
    most[1] = 32;
    refused("33 parties, 32 radios alike and a kind", most, sizeof most, 3);
    refused("33 parties, and 32 radios alike", most, sizeof most - 1, 3);
    most[2] = 32;
    refused("32 radios alike", most, sizeof most - 1, 14);
    for (uint8_t at = 0; at < 32; at++) {
        most[3 + at] = 200 - at;
    }
    expect("32 radios", most, sizeof most - 1, calls, 2, 7, 0, answers, 7);
    most[34] = most[3];
    refused("the last radio like the first", most, sizeof most - 1, 14);
    size_t kind_all = sizeof kind_calls, kind_room = sizeof kind_answers[0], len;
    for (size_t at = 0; at < 2; at++) {
        len = opening(FRAME(1, 1, 3), 32, 0, 2 * at, 3);
        expect("kind 3", frame, len, kind_calls, kind_all, kind_room, 0, kind_answers[at], kind_room);
        len = opening(FRAME(2, 1, 3, 3), 32, 0, 2 * at, 3);
        expect("kind 3 and a radio", frame, len, kind_calls, kind_all, kind_room, 0, kind_answers[at],
               kind_room);
    }
    len = opening(FRAME(1, 1, 3), 32, 1, 0, 0);
    memset(frame + 3, 0, 8);
    memset(frame + 3 + 28, 2, 2);
    memset(frame + 3 + 30, 3, 2);
    expect("the built-in kinds", frame, len, calls, all, room, 0, answers, room);
    len = opening(FRAME(1, 1, 3), 32, 3, 31, 0);
    expect("a desk that is not there", frame, len, calls, 2, 7, 0, answers, 7);
    most[34] = 199 - 31;
    len = opening(most, sizeof most - 1, 32, 2, 9, 0);
    expect("32 radios and 32 kinds", frame, len, calls, 2, 7, 0, answers, 7);
    refused("one radio too few, and no kinds", frame, 3 + 31, 12);
    refused("one kind too few", frame, len - 1, 15);
    refused("one kind", frame, opening(FRAME(1, 1, 3), 1, 0, 0, 0), 15);
    refused("31 kinds", frame, opening(FRAME(1, 1, 3), 31, 0, 0, 0), 15);
    refused("33 kinds", frame, opening(FRAME(1, 1, 3), 33, 0, 0, 0), 15);
    refused("255 kinds", frame, opening(FRAME(2, 1, 3, 7), 255, 0, 0, 0), 15);
    refused("a kind of party 0 that there is not", frame, opening(FRAME(1, 1, 3), 32, 0, 0, 4), 16);
    refused("a kind of party 3 that there is not", frame, opening(FRAME(1, 1, 3), 32, 0, 3, 4), 16);
    refused("a kind of party 31 that there is not", frame, opening(FRAME(2, 1, 3, 7), 32, 0, 31, 255),
            16);
    refused("no desk", frame, opening(FRAME(1, 1, 3), 32, 1, 0, 2), 17);
    refused("no desk, a radio 0", frame, opening(FRAME(2, 1, 3, 0), 32, 3, 0, 1), 17);
    refused("no permits, one kind", frame, opening(FRAME(1, 0, 0), 1, 4, 0, 4), 2);
    refused("no parties, no desk", frame, opening(FRAME(1, 1, 0), 32, 4, 0, 4), 3);
    refused("radios alike, one kind", frame, opening(FRAME(2, 2, 3, 7, 7), 1, 4, 0, 4), 14);
    refused("33 kinds that there are not", frame, opening(FRAME(1, 1, 3), 33, 4, 0, 4), 15);
    refused("no desk, and a kind that there is not", frame, opening(FRAME(1, 1, 3), 32, 1, 31, 4), 16);
    expect("half a call", FRAME(1, 1, 3), calls, all - 1, room, 254, answers, 0);
    expect("a code too low", FRAME(1, 1, 3), FRAME(0x0F, 0), room, 254, answers, 0);
    expect("a code too high", FRAME(2, 1, 3, 7), FRAME(0x15, 0), room, 254, answers, 0);
    expect("one byte too little room", FRAME(1, 1, 3), calls, all, room - 1, 255, answers, 0);
    expect("too little room with radios", FRAME(2, 2, 3, 0xA7, 0xA6), radio_calls, radio_all,
           radio_room - 1, 255, radio_answers, 0);
    return failures != 0;
}
