/* A tank's key, the zeros escaped in it, the ends of the range that holds this tank's keys alone, and those of the batches 40 to 60 of the tank beside it.
 * cc -I include examples/tank.c target/staticlib/libtuple.a -o target/tank && target/tank */
#include "tuple.h"
#include <inttypes.h>
#include <stdio.h>
#include <string.h>

static void line(const char *name, const uint8_t *bytes, uint64_t n) {
    printf("%-6s", name);
    for (uint64_t i = 0; i < n; i++) {
        printf(" %02X", bytes[i]);
    }
    printf("\n");
}

/* whether a is below b, by plain byte order */
static bool below(const uint8_t *a, uint64_t n, const uint8_t *b, uint64_t m) {
    int order = memcmp(a, b, n < m ? n : m);
    return order < 0 || (order == 0 && n < m);
}

int main(void) {
    const uint32_t type[] = {5, 2, 3, 1};           /* a record of 2: Bytes, Int */
    const uint64_t words[] = {5, 2, 3, 2, 1, 7};    /* a record of 2: 2 bytes of the pool, the number 7 */
    const uint8_t pool[] = {0x0A, 0x00};            /* tank 0A 00 */
    uint8_t key[32], lower[32], upper[32];

    tuple_encoded written = tuple_encode_key(type, 4, words, 6, pool, 2, key, sizeof key);
    if (written.refusal != TUPLE_OK) {
        printf("refused: %u, detail %llu\n", written.refusal, (unsigned long long)written.detail);
        return 1;
    }
    line("key", key, written.length);
    printf("zeros  %" PRIu64 "\n", written.zeros);
    tuple_ends ends = tuple_bounds(type, 4, key, written.length, 1, lower, sizeof lower, upper, sizeof upper);
    line("from", lower, ends.lower);
    line("up to", upper, ends.upper);

    /* the batches 40 to 60 of tank 0A, and whether batch 50 of each tank is among them */
    const uint64_t first[] = {5, 1, 3, 1}, lowest[] = {1, 40}, highest[] = {1, 60};
    ends = tuple_span(type, 4, first, 4, pool, 1, lowest, 2, NULL, 0, highest, 2, NULL, 0, lower, sizeof lower, upper, sizeof upper);
    line("span", lower, ends.lower);
    line("up to", upper, ends.upper);
    for (uint64_t n = 1; n <= 2; n++) {
        const uint64_t batch[] = {5, 2, 3, n, 1, 50};
        written = tuple_encode_key(type, 4, batch, 6, pool, n, key, sizeof key);
        line("key", key, written.length);
        bool inside = !below(key, written.length, lower, ends.lower) && below(key, written.length, upper, ends.upper);
        printf("inside %s\n", inside ? "yes" : "no");
    }
    return (int)ends.refusal;
}
