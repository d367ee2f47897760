/* A stand-in for the program `replay` that sums word by word, to show that tests/branches tells it from the proved one: for each record of
 * a stream of calls it refuses wrong lengths (1) and wrong sums (2), and else says 3. Built as it stands, its loop makes a jump for each
 * word; built with -DHEEDS_WORDS, it has a branch for a word besides, so that its work depends on the words. */
#include <stdint.h>
#include <stdio.h>

static uint8_t in[1 << 20];

static uint32_t word_sum(const uint8_t *b) {
    volatile uint32_t sum = 0; /* so that the compiler leaves the loop as it is */
    for (int j = 0; j < 512; j += 2) {
        uint32_t word = b[j] + 256u * b[j + 1];
#ifdef HEEDS_WORDS
        if (word == 0)
            continue;
#endif
        sum += word;
    }
    return sum % 65536;
}

static int ground(const uint8_t *b, size_t len) {
    if (len % 512 != 0)
        return 1;
    for (size_t at = 0; at < len; at += 512)
        if (word_sum(b + at) != 0)
            return 2;
    return 3;
}

int main(void) {
    static const char *const names[] = {"", "load", "put", "judge", "write", "check"};
    size_t n = fread(in, 1, sizeof in, stdin);
    for (size_t i = 0; i + 5 <= n;) {
        size_t len = in[i + 1] | (size_t)in[i + 2] << 8 | (size_t)in[i + 3] << 16;
        printf("%s refused %d\n", names[in[i] % 6], ground(in + i + 5, len));
        i += 5 + len;
    }
    return 0;
}
