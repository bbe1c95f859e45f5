// The schedule program in memory, as C sees it: the run of the paper, one with a radio, and a
// buffer that is too small.
#include <stdint.h>
#include <stdio.h>
#include <string.h>

// The size of the whole output, or 0 if it has no room. A slice is its address and its length.
size_t hub_schedule(const uint8_t *input, size_t input_len, uint8_t *out, size_t out_len);

static const char run[] =
    "010103\n1000\n1100\n1001\n1101\n1101\n1101\n1300\n1100\n1201\n1101\n1100\n1100\n1101\n";

static const char answers[] =
    "1FFFFFFFFFFFFF\n2000FFFFFFFFFF\n2100FFFFFFFFFF\n2001FFFFFFFFFF\n2201FFFFFFFFFF\n"
    "2301FF00000000\n2401FF00000000\n2000FFFFFFFFFF\n2700FFFFFFFFFF\n2001FFFFFFFFFF\n"
    "2F01FFFFFFFFFF\n2800FF00000000\n2B00FF00000000\n3301FF00000000\n7E000000000001\n";

static const char radio_run[] = "020101A7\n1000\n1100\n1100\n1400\n";

static const char radio_answers[] =
    "1FFFFFFFFFFFFF\n2000FFFFFFFFFF\n2100FFFFFFFFFF\n3600FFFFFFFFFF\n3900FF000000A7\n"
    "7E010000000000\n";

static int failures = 0;

// An input gives the size, the output, and leaves the rest of the buffer as it was.
static void expect(const char *name, const char *input, size_t len, size_t room,
                   const char *output) {
    uint8_t out[512], want[512];
    size_t size = strlen(output);
    memset(out, 0xAA, sizeof out);
    memset(want, 0xAA, sizeof want);
    memcpy(want, output, size);
    size_t got = hub_schedule((const uint8_t *)input, len, out, room);
    if (got != size || memcmp(out, want, sizeof out) != 0) {
        printf("FAILED: %s: size %zu\n", name, got);
        failures++;
    }
}

int main(void) {
    size_t all = sizeof run - 1, room = sizeof answers - 1;
    expect("the run of the paper", run, all, room, answers);
    expect("more room than needed", run, all, 512, answers);
    expect("the last end mark left out", run, all - 1, room, answers);
    expect("a radio", radio_run, sizeof radio_run - 1, sizeof radio_answers - 1, radio_answers);
    expect("one character too little room", run, all, room - 1, "");
    expect("no input", run, 0, 15, "7E000000000000\n");
    expect("no input and no room", run, 0, 14, "");
    expect("an empty line", "\n", 1, 30, "0CFFFFFFFFFFFF\n7E000000000000\n");
    return failures != 0;
}
