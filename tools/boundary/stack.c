/* The stack that each call uses: every call on the deepest and the widest sheets, each in a thread of its own whose stack is painted before and looked at after. */
#define _GNU_SOURCE
#include "../../include/tuple.h"
#include <ctype.h>
#include <pthread.h>
#include <stdio.h>
#include <stdlib.h>
#include <string.h>
#include <sys/mman.h>

enum { STACK = 256 * 1024, PAINT = 0xA5, WORDS = 1 << 14, BYTES = 1 << 17 };

/* ---- inputs: a type, a value of it and their key */

typedef struct {
    const char *name;
    uint32_t type[4097];
    size_t type_len;
    uint64_t words[WORDS];
    size_t words_len;
    uint8_t pool[64];
    size_t pool_len;
    uint8_t typed[BYTES], key[BYTES];
    size_t typed_len, key_len;
} input;

static input inputs[24];
static int count;

/* an Int in the type, the value and both encodings */
static void integer(input *in) {
    in->type[in->type_len++] = 1;
    in->words[in->words_len++] = 1;
    in->words[in->words_len++] = 7;
    const uint8_t seven[] = {0x49, 7};
    memcpy(in->typed + in->typed_len, seven, 2);
    memcpy(in->key + in->key_len, seven, 2);
    in->typed_len += 2;
    in->key_len += 2;
}

/* `depth` groups round an Int, each a record if its letter in the pattern is r, a record with an Int behind the group in it if it is i, else a union; optional
 * where the letter is upper case */
static void nest(const char *name, int depth, const char *pattern) {
    input *in = &inputs[count++];
    in->name = name;
    size_t n = strlen(pattern);
    bool bare = pattern[0] == 'r' || pattern[0] == 'i';
    for (int i = 0; i < depth; i++) {
        char group = tolower(pattern[i % n]);
        if (isupper(pattern[i % n]))
            in->type[in->type_len++] = 7;
        if (group != 'u') {
            int fields = group == 'i' ? 2 : 1;
            in->type[in->type_len++] = 5;
            in->type[in->type_len++] = fields;
            in->words[in->words_len++] = 5;
            in->words[in->words_len++] = fields;
            in->typed[in->typed_len++] = 0x22;
            if (i > 0 || !bare)
                in->key[in->key_len++] = 0x22;
        } else {
            in->type[in->type_len++] = 6;
            in->type[in->type_len++] = 1;
            in->type[in->type_len++] = 9;
            in->words[in->words_len++] = 6;
            in->words[in->words_len++] = 9;
            const uint8_t tag[] = {0x52, 0x49, 9};
            memcpy(in->typed + in->typed_len, tag, 3);
            in->typed_len += 3;
            memcpy(in->key + in->key_len, tag, 3);
            in->key_len += 3;
        }
    }
    integer(in);
    for (int i = depth - 1; i >= 0; i--) {
        if (tolower(pattern[i % n]) == 'i')
            integer(in);
        in->typed[in->typed_len++] = 0;
        if (i > 0 || !bare)
            in->key[in->key_len++] = 0;
    }
}

/* a record of n Ints; or, beside it, a union of n alternatives with its last */
static void widen(void) {
    input *in = &inputs[count++];
    in->name = "4,094 fields";
    in->type[0] = 5;
    in->type[1] = 4094;
    in->words[0] = 5;
    in->words[1] = 4094;
    in->typed[0] = 0x22;
    for (int i = 0; i < 4094; i++) {
        in->type[2 + i] = 1;
        in->words[2 + 2 * i] = 1;
        in->words[3 + 2 * i] = 7;
        in->key[2 * i] = 0x49;
        in->key[2 * i + 1] = 7;
    }
    in->type_len = 4096;
    in->words_len = 2 + 2 * 4094;
    in->key_len = 2 * 4094;
    memcpy(in->typed + 1, in->key, in->key_len);
    in->typed[1 + in->key_len] = 0;
    in->typed_len = in->key_len + 2;

    in = &inputs[count++];
    in->name = "2,047 alternatives";
    in->type[0] = 6;
    in->type[1] = 2047;
    for (int i = 0; i < 2047; i++) {
        in->type[2 + 2 * i] = i;
        in->type[3 + 2 * i] = 1;
    }
    in->type_len = 4096;
    const uint64_t words[] = {6, 2046, 1, 7};
    memcpy(in->words, words, sizeof words);
    in->words_len = 4;
    const uint8_t bytes[] = {0x52, 0x4A, 0x07, 0xFE, 0x49, 7, 0};
    memcpy(in->typed, bytes, 7);
    memcpy(in->key, bytes, 7);
    in->typed_len = in->key_len = 7;
}

/* ---- calls */

static const input *now;
static uint8_t out[BYTES], more[BYTES];
static uint64_t sheet[WORDS];
static uint32_t refusal;

static void nothing(void) { refusal = 0; }
static void encode_typed(void) { refusal = tuple_encode_typed(now->type, now->type_len, now->words, now->words_len, now->pool, now->pool_len, out, BYTES).refusal; }
static void encode_key(void) { refusal = tuple_encode_key(now->type, now->type_len, now->words, now->words_len, now->pool, now->pool_len, out, BYTES).refusal; }
static void decode_typed(void) { refusal = tuple_decode_typed(now->type, now->type_len, now->typed, now->typed_len, sheet, WORDS, out, BYTES).refusal; }
static void decode_key(void) { refusal = tuple_decode_key(now->type, now->type_len, now->key, now->key_len, sheet, WORDS, out, BYTES).refusal; }
static void check_key(void) { refusal = tuple_check_key(now->type, now->type_len, now->key, now->key_len).refusal; }
static void skip(void) { refusal = tuple_skip(now->typed, now->typed_len, 0, true).refusal; }
static void compare(void) { refusal = tuple_compare(now->words, now->words_len, now->pool, now->pool_len, now->words, now->words_len, now->pool, now->pool_len).refusal; }
static void strinc(void) { refusal = tuple_strinc(now->key, now->key_len, out, BYTES).refusal; }
static void above_field(void) { refusal = tuple_above_field(now->key, now->key_len, out, BYTES).refusal; }
static void bounds(void) { refusal = tuple_bounds(now->type, now->type_len, now->key, now->key_len, 1, out, BYTES, more, BYTES).refusal; }
/* the words of the record's first field, or of the union's payload; a field behind the first is an Int, two words */
static size_t first_field(void) { return now->words_len - (now->words[0] == 5 ? 2 * now->words[1] : 2); }
/* the span from the first field to itself; of a record of more, then that from the last to itself, behind all the others */
static void span(void) {
    const uint64_t none[] = {5, 0}, *field = now->words + 2;
    size_t n = first_field();
    refusal = tuple_span(now->type, now->type_len, none, 2, NULL, 0, field, n, NULL, 0, field, n, NULL, 0, out, BYTES, more, BYTES).refusal;
    if (now->words[0] == 5 && now->words[1] > 1) {
        n = now->words_len - 2;
        field = now->words + n;
        memcpy(sheet, now->words, n * 8);
        sheet[1]--;
        refusal = tuple_span(now->type, now->type_len, sheet, n, NULL, 0, field, 2, NULL, 0, field, 2, NULL, 0, out, BYTES, more, BYTES).refusal;
    }
}
/* a Str behind all the record's fields, or in place of the last where the type has no word left; a union stands in a record of its own */
static void starting_with(void) {
    static uint32_t type[4100];
    size_t top = now->type[0] == 5 ? 2 : 0, types = now->type_len - top, n = now->words_len - top;
    uint32_t k = top ? now->type[1] : 1;
    if (top && types + 3 > 4096) {
        k--;
        types--;
        n -= 2;
    }
    type[0] = sheet[0] = 5;
    type[1] = k + 1;
    sheet[1] = k;
    memcpy(type + 2, now->type + top, types * 4);
    memcpy(sheet + 2, now->words + top, n * 8);
    type[2 + types] = 2;
    refusal = tuple_starting_with(type, types + 3, sheet, n + 2, now->pool, now->pool_len, now->key, now->key_len, out, BYTES, more, BYTES).refusal;
}
/* the new value is the record's first field again */
static void replace(void) {
    memcpy(out, now->key, now->key_len);
    refusal = tuple_replace(now->type, now->type_len, out, BYTES, now->key_len, 0, now->words + 2, first_field(), now->pool, now->pool_len).refusal;
}
static void get_i64(void) { refusal = tuple_get_i64(now->key, now->key_len).refusal; }
static void get_u64(void) { refusal = tuple_get_u64(now->key, now->key_len).refusal; }
static const uint8_t text[] = {0x21, 'a', 0, 0xFF, 'b', 0}, raw[] = {0x53, 'a', 0, 0xFF, 'b', 0};
static void get_str(void) { refusal = tuple_get_str(text, sizeof text, out, BYTES).refusal; }
static void get_bytes(void) { refusal = tuple_get_bytes(raw, sizeof raw, out, BYTES).refusal; }
static void put_i64(void) { refusal = tuple_put_i64(out, BYTES, 5, 0x8000000000000000).refusal; }
static void put_u64(void) { refusal = tuple_put_u64(out, BYTES, 5, 0x8000000000000000).refusal; }
static void put_str(void) { refusal = tuple_put_str(out, BYTES, 5, text + 1, 2).refusal; }
static void put_bytes(void) { refusal = tuple_put_bytes(out, BYTES, 5, (const uint8_t *)now->words, now->words_len * 8).refusal; }
static void put_fact_id(void) { refusal = tuple_put_fact_id(out, BYTES, 5, 7).refusal; }

static const struct {
    const char *name;
    void (*run)(void);
} calls[] = {{"(an empty thread)", nothing}, {"encode_typed", encode_typed}, {"encode_key", encode_key}, {"decode_typed", decode_typed}, {"decode_key", decode_key}, {"check_key", check_key}, {"skip", skip},
             {"compare", compare}, {"strinc", strinc}, {"above_field", above_field}, {"bounds", bounds}, {"span", span}, {"starting_with", starting_with}, {"replace", replace}, {"get_i64", get_i64},
             {"get_u64", get_u64}, {"get_str", get_str}, {"get_bytes", get_bytes}, {"put_i64", put_i64}, {"put_u64", put_u64}, {"put_str", put_str}, {"put_bytes", put_bytes}, {"put_fact_id", put_fact_id}};

static void *run(void *call) {
    calls[*(int *)call].run();
    return NULL;
}

/* the bytes of the stack that the call's thread touched */
static size_t used(uint8_t *stack, int call) {
    pthread_attr_t attributes;
    pthread_t thread;
    memset(stack, PAINT, STACK);
    if (pthread_attr_init(&attributes) || pthread_attr_setstack(&attributes, stack, STACK) || pthread_create(&thread, &attributes, run, &call) || pthread_join(thread, NULL)) {
        puts("no thread");
        exit(2);
    }
    size_t low = 0;
    while (low < STACK && stack[low] == PAINT)
        low++;
    return STACK - low;
}

int main(void) {
    nest("320 records", 320, "r");
    nest("320 unions", 320, "u");
    nest("320, a record and unions", 320, "ruuuuuuuuuuuuuuu");
    nest("320, by turns", 320, "ru");
    nest("257 records", 257, "r");
    nest("256 records", 256, "r");
    nest("256 records, an Int behind each", 256, "i");
    nest("257 records, an Int behind each", 257, "i");
    nest("320 records, an Int behind each", 320, "i");
    nest("256 unions", 256, "u");
    nest("256, by turns", 256, "ru");
    nest("257, by turns", 257, "ru");
    nest("256 optional records", 256, "R");
    nest("320 optional records", 320, "R");
    nest("256 optional records, an Int behind each", 256, "I");
    nest("256 optional unions", 256, "U");
    nest("256 records, every second optional", 256, "rR");
    nest("257 records, every second optional", 257, "iI");
    nest("256, records and optional unions by turns", 256, "rU");
    widen();

    /* a page that nobody may touch lies below the stack */
    size_t page = 4096;
    uint8_t *place = mmap(NULL, STACK + page, PROT_READ | PROT_WRITE, MAP_PRIVATE | MAP_ANONYMOUS | MAP_STACK, -1, 0);
    if (place == MAP_FAILED || mprotect(place, page, PROT_NONE)) {
        puts("no stack");
        return 2;
    }
    size_t empty = used(place + page, 0), most = 0;
    printf("| call | most bytes of stack | on | refusal |\n|-|-|-|-|\n");
    for (size_t c = 1; c < sizeof calls / sizeof *calls; c++) {
        size_t largest = 0;
        const char *on = "";
        uint32_t answer = 0;
        for (int i = 0; i < count; i++) {
            now = &inputs[i];
            size_t n = used(place + page, (int)c) - empty;
            if (getenv("STACK_ALL"))
                printf("%s on %s: %zu, refusal %u\n", calls[c].name, now->name, n, refusal);
            if (n > largest) {
                largest = n;
                on = now->name;
                answer = refusal;
            }
        }
        printf("| %s | %zu | %s | %u |\n", calls[c].name, largest, on, answer);
        if (largest > most)
            most = largest;
    }
    printf("most: %zu bytes, beside %zu of an empty thread; every call returned on a stack of %d\n", most, empty, STACK);
    return 0;
}
