// Enters frames into a book whose every door has a lock, for bench/doorbook to count: KIND COUNT.
// A kind is the answer: 65 accepted; 12; 19; 20, the lock stands at the last door; 21.
#include <stdint.h>
#include <stdio.h>
#include <stdlib.h>

uint8_t book_enter(uint8_t *book, size_t book_len, const uint8_t *frame, size_t frame_len);

int main(int count_of_words, char **words) {
    static uint8_t book[800];
    if (count_of_words != 3) return 2;
    int kind = atoi(words[1]), count = atoi(words[2]);
    for (int door = 0; door < 200; door++) book[4 * door + 3] = door + 1;
    uint8_t frame[10] = {kind == 12 ? 0x41 : 0x40, kind == 19 ? 200 : 0};
    for (int turn = 0; turn < count; turn++) {
        // the lock at door 0 is replaced by one that stands nowhere, and that one by it
        int back = kind == 65 && turn % 2 == 1;
        frame[5] = kind == 20 ? 200 : back ? 1 : 201;
        frame[9] = kind == 21 ? 7 : back ? 201 : 1;
        if (book_enter(book, sizeof book, frame, sizeof frame) != kind) {
            printf("turn %d is not answered by %d\n", turn, kind);
            return 1;
        }
    }
    return 0;
}
