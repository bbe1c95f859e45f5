// The door book as C sees it: each answer, what it leaves in the book, and bytes that are no book.
#include <stdint.h>
#include <stdio.h>
#include <string.h>

// A book is 200 locks of four bytes, high byte first; 800 bytes of 0 are the empty one. book_enter
// gives 0x41 accepted, 12, 19, 20 or 21 refused, 255 no book; book_lock 0 where no lock stands.
uint8_t book_enter(uint8_t *book, size_t book_len, const uint8_t *frame, size_t frame_len);
uint32_t book_lock(const uint8_t *book, size_t book_len, uint8_t door);

enum { BOOK = 800, PAST = 8 };

// The book, with some bytes past it that nobody may write; and what it should be.
static uint8_t book[BOOK + PAST], want[BOOK + PAST];
static int failures = 0;

static void expect(const char *name, uint32_t got, uint32_t wanted) {
    if (got != wanted || memcmp(book, want, sizeof book) != 0) {
        printf("FAILED: %s: %u\n", name, got);
        failures++;
    }
}

// Enters a frame of len bytes, of which there are at most eleven.
static uint8_t enter(uint8_t code, uint8_t door, uint32_t lock, uint32_t superseded, size_t len) {
    const uint8_t frame[11] = {
        code,
        door,
        lock >> 24,
        lock >> 16 & 255,
        lock >> 8 & 255,
        lock & 255,
        superseded >> 24,
        superseded >> 16 & 255,
        superseded >> 8 & 255,
        superseded & 255,
    };
    return book_enter(book, BOOK, frame, len);
}

int main(void) {
    memset(book + BOOK, 0xAA, PAST);
    memset(want + BOOK, 0xAA, PAST);

    // fitted and replaced at the last door: its four bytes alone are written
    memcpy(want + 796, "\x01\x02\x03\x04", 4);
    expect("first fitting", enter(0x40, 199, 0x01020304, 0, 10), 0x41);
    expect("its lock", book_lock(book, BOOK, 199), 0x01020304);
    memcpy(want + 796, "\xFF\xFE\xFD\xFC", 4);
    expect("replaced", enter(0x40, 199, 0xFFFEFDFC, 0x01020304, 10), 0x41);
    expect("its lock", book_lock(book, BOOK, 199), 0xFFFEFDFC);
    memcpy(want, "\x01\x02\x03\x04", 4);
    expect("the old lock at another door", enter(0x40, 0, 0x01020304, 0, 10), 0x41);
    expect("its lock", book_lock(book, BOOK, 0), 0x01020304);
    expect("no lock", book_lock(book, BOOK, 1), 0);
    expect("no door 200", book_lock(book, BOOK, 200), 0);
    expect("no door 255", book_lock(book, BOOK, 255), 0);

    // refused, in order; nothing is written
    expect("nine bytes", enter(0x40, 200, 5, 0, 9), 12);
    expect("eleven bytes", enter(0x40, 1, 5, 0, 11), 12);
    expect("another code", enter(0x41, 200, 5, 0, 10), 12);
    expect("a code one too low", enter(0x3F, 1, 5, 0, 10), 12);
    expect("no byte", enter(0x40, 1, 5, 0, 0), 12);
    expect("door 200", enter(0x40, 200, 0, 0, 10), 19);
    expect("door 255", enter(0x40, 255, 5, 0, 10), 19);
    expect("door 200, a lock that stands, another superseded", enter(0x40, 200, 0xFFFEFDFC, 1, 10), 19);
    expect("lock 0", enter(0x40, 1, 0, 7, 10), 20);
    expect("a lock that stands", enter(0x40, 1, 0xFFFEFDFC, 0, 10), 20);
    expect("a lock that stands there", enter(0x40, 0, 0x01020304, 0x01020304, 10), 20);
    expect("a lock that stands, another superseded", enter(0x40, 0, 0xFFFEFDFC, 9, 10), 20);
    expect("another superseded", enter(0x40, 0, 5, 6, 10), 21);
    expect("its bytes turned round", enter(0x40, 0, 5, 0x04030201, 10), 21);
    expect("one superseded where none stands", enter(0x40, 1, 5, 6, 10), 21);
    expect("none superseded", enter(0x40, 0, 5, 0, 10), 21);

    // a book that no frames lead to, with one lock at two doors
    memcpy(book + 4, "\x01\x02\x03\x04", 4);
    memcpy(want + 4, "\x00\x00\x00\x05", 4);
    expect("one of the two replaced", enter(0x40, 1, 5, 0x01020304, 10), 0x41);
    expect("the other stands", enter(0x40, 2, 0x01020304, 0, 10), 20);

    // where no door is without a lock, 0 is still none
    memset(book, 7, BOOK);
    memset(want, 7, BOOK);
    expect("lock 0 in a full book", enter(0x40, 9, 0, 0x07070707, 10), 20);

    // no book
    const uint8_t frame[10] = {0x40, 2, 0, 0, 0, 6};
    expect("a byte too few", book_enter(book, BOOK - 1, frame, 10), 255);
    expect("a byte too many", book_enter(book, BOOK + 1, frame, 10), 255);
    expect("no byte of a book", book_enter(book, 0, frame, 0), 255);
    expect("no lock in a byte too few", book_lock(book, BOOK - 1, 0), 0);
    expect("no lock in a byte too many", book_lock(book, BOOK + 1, 0), 0);
    return failures != 0;
}
