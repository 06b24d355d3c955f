/* A dose's key: a reference to a batch, made from its predicate and its sequence, and an amount in grams; and what is answered to a reference that is none of
 * its type. cc -I include examples/dose.c target/staticlib/libtuple.a -o target/dose && target/dose */
#include "tuple.h"
#include <inttypes.h>
#include <stdio.h>

enum { BATCHES = 7 }; /* the predicate of batches */

/* the key of a dose of 256 g into a batch, or the refusal */
static void dose(const char *name, uint64_t batch) {
    const uint32_t type[] = {5, 2, 4, BATCHES, 1};      /* a record of 2: a reference to predicate 7, Int */
    const uint64_t words[] = {5, 2, 4, batch, 1, 256};
    uint8_t key[32];
    tuple_encoded written = tuple_encode_key(type, 5, words, 6, NULL, 0, key, sizeof key);
    printf("%-22s", name);
    if (written.refusal != TUPLE_OK) {
        printf(" refused: %" PRIu32 ", detail %" PRIu64 "\n", written.refusal, written.detail);
        return;
    }
    for (uint64_t i = 0; i < written.length; i++) {
        printf(" %02X", key[i]);
    }
    printf("\n");
}

int main(void) {
    uint64_t last = tuple_fact_id(BATCHES, UINT64_C(0xFFFFFFFFFF));
    dose("batch 7:1", tuple_fact_id(BATCHES, 1));
    dose("batch 7:4294967296", tuple_fact_id(BATCHES, UINT64_C(4294967296)));
    dose("batch 7:1099511627775", last);
    dose("a reference to 8:1", tuple_fact_id(8, 1));
    dose("7:1 by 32 bits and 32", UINT64_C(7) << 32 | 1);
    dose("no sequence 0", tuple_fact_id(BATCHES, 0));
    dose("no sequence 2^40", tuple_fact_id(BATCHES, UINT64_C(1) << 40));
    dose("no predicate 2^24", tuple_fact_id(UINT32_C(1) << 24, 1));
    printf("%" PRIu64 " is %" PRIu32 ":%" PRIu64 "\n", last, tuple_fact_predicate(last), tuple_fact_sequence(last));
    return 0;
}
