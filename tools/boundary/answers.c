/* The layout of the answers, seen from C: every field of every struct by a value that no other field has, accepted and refused. */
#include "../../include/tuple.h"
#include <stdio.h>
#include <string.h>

static int wrong;

static void same(const char *what, const uint64_t *found, const uint64_t *due, size_t n) {
    for (size_t i = 0; i < n; i++) {
        if (found[i] != due[i]) {
            printf("%s: field %zu is %llu, not %llu\n", what, i, (unsigned long long)found[i], (unsigned long long)due[i]);
            wrong++;
        }
    }
}

static void length(const char *what, tuple_length a, uint64_t refusal, uint64_t detail, uint64_t length) {
    same(what, (uint64_t[]){a.refusal, a.detail, a.length}, (uint64_t[]){refusal, detail, length}, 3);
}

static void encoded(const char *what, tuple_encoded a, uint64_t refusal, uint64_t detail, uint64_t length, uint64_t zeros) {
    same(what, (uint64_t[]){a.refusal, a.detail, a.length, a.zeros}, (uint64_t[]){refusal, detail, length, zeros}, 4);
}

static void sheet(const char *what, tuple_sheet a, uint64_t refusal, uint64_t detail, uint64_t begun, uint64_t words, uint64_t pool) {
    same(what, (uint64_t[]){a.refusal, a.detail, a.begun, a.words, a.pool}, (uint64_t[]){refusal, detail, begun, words, pool}, 5);
}

static void ends(const char *what, tuple_ends a, uint64_t refusal, uint64_t detail, uint64_t lower, uint64_t upper) {
    same(what, (uint64_t[]){a.refusal, a.detail, a.lower, a.upper}, (uint64_t[]){refusal, detail, lower, upper}, 4);
}

static void order(const char *what, tuple_order a, uint64_t refusal, int32_t order) {
    same(what, (uint64_t[]){a.refusal, a.detail, (uint64_t)(int64_t)a.order}, (uint64_t[]){refusal, 0, (uint64_t)(int64_t)order}, 3);
}

static void number(const char *what, tuple_number a, uint64_t refusal, uint64_t detail, uint64_t value, uint64_t used) {
    same(what, (uint64_t[]){a.refusal, a.detail, a.value, a.used}, (uint64_t[]){refusal, detail, value, used}, 4);
}

static void part(const char *what, tuple_part a, uint64_t refusal, uint64_t detail, uint64_t source, uint64_t at, uint64_t len, uint64_t used) {
    same(what, (uint64_t[]){a.refusal, a.detail, a.source, a.at, a.len, a.used}, (uint64_t[]){refusal, detail, source, at, len, used}, 6);
}

static void step(const char *what, tuple_step a, uint64_t refusal, uint64_t detail, uint64_t value, uint64_t at, uint64_t depth) {
    same(what, (uint64_t[]){a.refusal, a.detail, a.value, a.at, a.depth}, (uint64_t[]){refusal, detail, value, at, depth}, 5);
}

static void part_step(const char *what, tuple_part_step a, uint64_t refusal, uint64_t detail, uint64_t source, uint64_t part, uint64_t len, uint64_t at, uint64_t depth) {
    same(what, (uint64_t[]){a.refusal, a.detail, a.source, a.part, a.len, a.at, a.depth}, (uint64_t[]){refusal, detail, source, part, len, at, depth}, 7);
}

static void character(const char *what, tuple_char a, uint64_t refusal, uint64_t given, uint64_t code, uint64_t at, bool done) {
    same(what, (uint64_t[]){a.refusal, a.detail, a.given, a.code, a.at, a.done}, (uint64_t[]){refusal, 0, given, code, at, done}, 6);
}

int main(void) {
    /* tank keys: a tag and a number */
    const uint32_t tank[] = {5, 2, 3, 1};
    const uint64_t words[] = {5, 2, 3, 2, 1, 7};
    const uint8_t tag[] = {0x0A, 0x00};
    const uint8_t key[] = {0x53, 0x0A, 0x00, 0xFF, 0x00, 0x49, 0x07};
    const uint64_t nine[] = {1, 0xFFFFFFFFFFFFFFF7};
    const uint64_t null[] = {0};
    uint8_t out[16] = {0}, more[16] = {0};
    uint64_t sheet_words[8];

    encoded("encode_key", tuple_encode_key(tank, 4, words, 6, tag, 2, out, 16), 0, 0, 7, 1);
    if (memcmp(out, key, 7) != 0) {
        puts("encode_key: the key's bytes differ");
        wrong++;
    }
    encoded("encode_key, no zeros", tuple_encode_key(tank, 4, words, 6, (const uint8_t[]){0x0A, 0x01}, 2, out, 16), 0, 0, 6, 0);
    encoded("encode_key, short", tuple_encode_key(tank, 4, words, 6, tag, 2, out, 6), TUPLE_NO_ROOM, 7, 0, 0);
    encoded("encode_typed", tuple_encode_typed(tank, 4, words, 6, tag, 2, out, 16), 0, 0, 9, 1);
    encoded("encode_typed, no zeros", tuple_encode_typed(tank, 4, words, 6, (const uint8_t[]){0x0A, 0x01}, 2, out, 16), 0, 0, 8, 0);
    encoded("encode_typed, short", tuple_encode_typed(tank, 4, words, 6, tag, 2, out, 8), TUPLE_NO_ROOM, 9, 0, 0);
    encoded("encode_typed, null", tuple_encode_typed(tank, 4, null, 1, NULL, 0, out, 16), TUPLE_TYPE_MISMATCH, 5, 0, 0);
    sheet("decode_key", tuple_decode_key(tank, 4, key, 7, sheet_words, 8, out, 16), 0, 0, 2, 6, 2);
    if (memcmp(sheet_words, words, sizeof words) != 0 || memcmp(out, tag, 2) != 0) {
        puts("decode_key: the sheet differs");
        wrong++;
    }
    sheet("decode_key, short", tuple_decode_key(tank, 4, key, 7, sheet_words, 5, out, 16), TUPLE_NO_ROOM, 6, 2, 0, 0);
    sheet("decode_typed, no group", tuple_decode_typed(tank, 4, key, 7, sheet_words, 8, out, 16), TUPLE_UNEXPECTED_MARK, 0x53, 1, 0, 0);
    sheet("check_key", tuple_check_key(tank, 4, key, 7), 0, 0, 2, 0, 0);
    sheet("check_key, cut", tuple_check_key(tank, 4, key, 6), TUPLE_UNEXPECTED_EOF, 0, 2, 0, 0);
    length("skip", tuple_skip(key, 7, 0, false), 0, 0, 5);
    length("skip, null", tuple_skip((const uint8_t[]){0}, 1, 0, true), TUPLE_UNEXPECTED_TERMINATOR, 0, 0);
    order("compare, less", tuple_compare(nine, 2, NULL, 0, words + 4, 2, NULL, 0), 0, -1);
    order("compare, equal", tuple_compare(nine, 2, NULL, 0, nine, 2, NULL, 0), 0, 0);
    order("compare, greater", tuple_compare(words + 4, 2, NULL, 0, nine, 2, NULL, 0), 0, 1);
    order("compare, no value", tuple_compare(nine, 1, NULL, 0, nine, 2, NULL, 0), TUPLE_BAD_VALUE, 0);
    length("strinc", tuple_strinc(key, 4, out, 16), 0, 0, 3);
    length("strinc, FF", tuple_strinc((const uint8_t[]){0xFF}, 1, out, 16), TUPLE_NO_BOUND, 0, 0);
    length("above_field", tuple_above_field(key, 5, out, 16), 0, 0, 6);
    ends("bounds", tuple_bounds(tank, 4, key, 7, 1, out, 16, more, 16), 0, 0, 5, 6);
    ends("bounds, short", tuple_bounds(tank, 4, key, 7, 1, out, 5, more, 5), TUPLE_NO_ROOM, 6, 0, 0);
    /* the numbers 7 to 256 of this tank, and the tags 0A to 0A 00 of any, whose sheets have pools; a refused call leaves the ends of the one before it */
    const uint64_t first[] = {5, 1, 3, 2}, no_field[] = {5, 0}, one_byte[] = {3, 1}, number_256[] = {1, 256};
    ends("span of tags", tuple_span(tank, 4, no_field, 2, NULL, 0, one_byte, 2, tag, 1, words + 2, 2, tag, 2, out, 16, more, 16), 0, 0, 3, 6);
    if (memcmp(out, key, 3) != 0 || memcmp(more, (const uint8_t[]){0x53, 0x0A, 0x00, 0xFF, 0x00, 0xFF}, 6) != 0) {
        puts("span of tags: the ends' bytes differ");
        wrong++;
    }
    ends("span", tuple_span(tank, 4, first, 4, tag, 2, words + 4, 2, NULL, 0, number_256, 2, NULL, 0, out, 16, more, 16), 0, 0, 7, 9);
    ends("span, no type", tuple_span(tank, 3, null, 0, NULL, 0, null, 0, NULL, 0, null, 0, NULL, 0, out, 16, more, 16), TUPLE_BAD_TYPE, 0, 0, 0);
    ends("span, no record", tuple_span(tank, 4, words + 2, 2, tag, 2, words + 4, 2, NULL, 0, number_256, 2, NULL, 0, out, 16, more, 16), TUPLE_BAD_VALUE, 0, 0, 0);
    ends("span, no lowest", tuple_span(tank, 4, words, 6, tag, 2, words + 4, 1, NULL, 0, number_256, 2, NULL, 0, out, 16, more, 16), TUPLE_BAD_VALUE, 0, 0, 0);
    ends("span, no highest", tuple_span(tank, 4, words, 6, tag, 2, words + 4, 2, NULL, 0, number_256, 2, tag, 1, out, 16, more, 16), TUPLE_BAD_VALUE, 0, 0, 0);
    ends("span, no field", tuple_span(tank, 4, words, 6, tag, 2, words + 4, 2, NULL, 0, number_256, 2, NULL, 0, out, 16, more, 16), TUPLE_NO_FIELD, 0, 0, 0);
    ends("span, null", tuple_span(tank, 4, first, 4, tag, 2, words + 4, 2, NULL, 0, null, 1, NULL, 0, out, 16, more, 16), TUPLE_TYPE_MISMATCH, 1, 0, 0);
    ends("span, short", tuple_span(tank, 4, first, 4, tag, 2, words + 4, 2, NULL, 0, number_256, 2, NULL, 0, out, 6, more, 0), TUPLE_NO_ROOM, 7, 0, 0);
    ends("span, short above", tuple_span(tank, 4, first, 4, tag, 2, nine, 2, NULL, 0, number_256, 2, NULL, 0, out, 7, more, 8), TUPLE_NO_ROOM, 9, 0, 0);
    if (memcmp(out, key, 7) != 0 || memcmp(more, key, 5) != 0 || memcmp(more + 5, (const uint8_t[]){0x4A, 0x01, 0x00, 0xFF}, 4) != 0) {
        puts("span: the ends' bytes differ");
        wrong++;
    }
    /* the names of this tank that begin with r FF, the tags that begin with 0A 00, and all tags; a refused call leaves every byte of both ends' buffers */
    const uint32_t named[] = {5, 2, 3, 7, 2};
    const uint64_t no_tag[] = {5, 1, 1, 7};
    const uint8_t r[] = {'r', 0xFF};
    ends("starting_with, tags", tuple_starting_with(tank, 4, no_field, 2, NULL, 0, tag, 2, out, 16, more, 16), 0, 0, 4, 3);
    if (memcmp(out, key, 4) != 0 || memcmp(more, (const uint8_t[]){0x53, 0x0A, 0x01}, 3) != 0) {
        puts("starting_with, tags: the ends' bytes differ");
        wrong++;
    }
    ends("starting_with, nothing", tuple_starting_with(tank, 4, no_field, 2, NULL, 0, NULL, 0, out, 1, more, 1), 0, 0, 1, 1);
    if (out[0] != 0x53 || more[0] != 0x54) {
        puts("starting_with, nothing: the ends' bytes differ");
        wrong++;
    }
    memset(out, 0xEE, 16);
    memset(more, 0xEE, 16);
    ends("starting_with", tuple_starting_with(named, 5, first, 4, tag, 2, r, 2, out, 16, more, 16), 0, 0, 8, 7);
    ends("starting_with, no type", tuple_starting_with(named, 4, null, 0, NULL, 0, NULL, 0, out, 16, more, 16), TUPLE_BAD_TYPE, 0, 0, 0);
    ends("starting_with, no record", tuple_starting_with(named, 5, words + 2, 2, tag, 2, NULL, 0, out, 16, more, 16), TUPLE_BAD_VALUE, 0, 0, 0);
    ends("starting_with, no pool", tuple_starting_with(named, 5, first, 4, tag, 1, NULL, 0, out, 16, more, 16), TUPLE_BAD_VALUE, 0, 0, 0);
    ends("starting_with, no field", tuple_starting_with(tank, 4, words, 6, tag, 2, NULL, 0, out, 16, more, 16), TUPLE_NO_FIELD, 0, 0, 0);
    ends("starting_with, an Int", tuple_starting_with(tank, 4, no_tag, 4, NULL, 0, NULL, 0, out, 16, more, 16), TUPLE_NO_FIELD, 0, 0, 0);
    ends("starting_with, no tag", tuple_starting_with(named, 5, no_tag, 4, NULL, 0, r, 2, NULL, 0, NULL, 0), TUPLE_TYPE_MISMATCH, 3, 0, 0);
    ends("starting_with, no room", tuple_starting_with(named, 5, first, 4, tag, 2, r, 2, NULL, 0, NULL, 0), TUPLE_NO_ROOM, 8, 0, 0);
    ends("starting_with, short", tuple_starting_with(named, 5, first, 4, tag, 2, tag, 1, out, 6, more, 16), TUPLE_NO_ROOM, 7, 0, 0);
    ends("starting_with, short above", tuple_starting_with(named, 5, first, 4, tag, 2, tag, 2, out, 16, more, 7), TUPLE_NO_ROOM, 8, 0, 0);
    const uint8_t from[] = {0x53, 0x0A, 0x00, 0xFF, 0x00, 0x21, 'r', 0xFF, 0xEE, 0xEE, 0xEE, 0xEE, 0xEE, 0xEE, 0xEE, 0xEE};
    const uint8_t up_to[] = {0x53, 0x0A, 0x00, 0xFF, 0x00, 0x21, 's', 0xEE, 0xEE, 0xEE, 0xEE, 0xEE, 0xEE, 0xEE, 0xEE, 0xEE};
    if (memcmp(out, from, 16) != 0 || memcmp(more, up_to, 16) != 0) {
        puts("starting_with: the ends' bytes differ");
        wrong++;
    }
    memcpy(out, key, 7);
    length("replace", tuple_replace(tank, 4, out, 16, 7, 1, nine, 2, NULL, 0), 0, 0, 7);
    length("replace, null", tuple_replace(tank, 4, out, 16, 7, 1, null, 1, NULL, 0), TUPLE_TYPE_MISMATCH, 1, 0);
    number("get_i64", tuple_get_i64((const uint8_t[]){0x47, 0xF6, 0}, 3), 0, 0, 0xFFFFFFFFFFFFFFF7, 2);
    number("get_u64", tuple_get_u64((const uint8_t[]){0x49, 9, 0}, 3), 0, 0, 9, 2);
    number("get_u64, negative", tuple_get_u64((const uint8_t[]){0x47, 0xF6}, 2), TUPLE_UNEXPECTED_MARK, 0x47, 0, 0);
    part("get_str", tuple_get_str((const uint8_t[]){0x21, 'a', 'b', 'c', 0}, 5, more, 16), 0, 0, 1, 1, 3, 5);
    part("get_bytes", tuple_get_bytes(key, 7, more, 16), 0, 0, 2, 0, 2, 5);
    part("get_bytes, short", tuple_get_bytes(key, 7, more, 1), TUPLE_NO_ROOM, 2, 0, 0, 0, 0);
    length("put_i64", tuple_put_i64(out, 16, 3, 7), 0, 0, 5);
    length("put_u64", tuple_put_u64(out, 16, 3, 256), 0, 0, 6);
    length("put_str", tuple_put_str(out, 16, 3, (const uint8_t *)"abc", 3), 0, 0, 8);
    length("put_str, no text", tuple_put_str(out, 16, 3, (const uint8_t[]){0x80}, 1), TUPLE_BAD_STRING, 0, 0);
    length("put_bytes", tuple_put_bytes(out, 16, 3, tag, 2), 0, 0, 8);
    length("put_fact_id", tuple_put_fact_id(out, 16, 3, 1), 0, 0, 12);
    length("put_fact_id, past", tuple_put_fact_id(out, 16, 17, 1), TUPLE_NO_ROOM, 17, 0);

    const uint8_t group[] = {0x22, 0x00, 0xFF, 0x49, 0x07, 0x52, 0x49, 0x09, 0x47, 0xF6, 0x00, 0x00};
    const uint8_t reference[] = {0x00, 0x51, 0, 0, 3, 0, 0, 0, 0, 5};
    const uint64_t deepest = UINT64_MAX;
    step("open_record", tuple_open_record(group, 12, 0, 6), 0, 0, 0, 1, 7);
    step("open_record, deepest", tuple_open_record(group, 12, 0, deepest), TUPLE_BAD_RECORD, 0, 0, 0, deepest);
    step("take_null", tuple_take_null(group, 12, 1, 7), 0, 0, 0, 3, 7);
    step("take_null, deep", tuple_take_null(group, 12, 1, deepest), 0, 0, 0, 3, 256);
    step("take_null, an integer", tuple_take_null(group, 12, 3, 300), TUPLE_UNEXPECTED_MARK, 0x49, 0, 3, 300);
    step("take_u64", tuple_take_u64(group, 12, 3, 1), 0, 0, 7, 5, 1);
    step("open_union", tuple_open_union(group, 12, 5, 1), 0, 0, 9, 8, 2);
    step("take_i64", tuple_take_i64(group, 12, 8, 2), 0, 0, 0xFFFFFFFFFFFFFFF7, 10, 2);
    step("take_i64, past", tuple_take_i64(group, 12, 13, 2), TUPLE_UNEXPECTED_EOF, 0, 0, 13, 2);
    step("take_fact_id", tuple_take_fact_id(reference, 10, 1, 4), 0, 0, tuple_fact_id(3, 5), 10, 4);
    number("is_record_end", tuple_is_record_end(group, 12, 10, 2), 0, 0, 1, 0);
    number("is_record_end, null", tuple_is_record_end(group, 12, 1, 1), 0, 0, 0, 0);
    number("is_record_end, past", tuple_is_record_end(group, 12, 12, 1), TUPLE_UNEXPECTED_EOF, 0, 0, 0);
    step("close", tuple_close(group, 12, 10, 2), 0, 0, 0, 11, 1);
    step("close, none open", tuple_close(group, 12, 10, 0), TUPLE_BAD_RECORD, 0, 0, 10, 0);
    part_step("take_str", tuple_take_str((const uint8_t[]){0, 0x21, 'a', 'b', 'c', 0}, 6, 1, 9, more, 16), 0, 0, 1, 2, 3, 6, 9);
    part_step("take_bytes", tuple_take_bytes(key, 7, 0, 9, more, 16), 0, 0, 2, 0, 2, 5, 9);
    part_step("take_bytes, short", tuple_take_bytes(key, 7, 0, 300, more, 1), TUPLE_NO_ROOM, 2, 0, 0, 0, 0, 300);
    step("put_null", tuple_put_null(out, 16, 3, 1), 0, 0, 0, 5, 1);
    step("put_record", tuple_put_record(out, 16, 3, 1), 0, 0, 0, 4, 2);
    step("put_union", tuple_put_union(out, 16, 3, 1, 300), 0, 0, 0, 7, 2);
    step("put_end", tuple_put_end(out, 16, 3, 9), 0, 0, 0, 4, 8);
    step("put_end, short", tuple_put_end(out, 3, 3, 300), TUPLE_NO_ROOM, 4, 0, 3, 300);
    length("str_chars", tuple_str_chars((const uint8_t[]){0x21, 0}, 2), 0, 0, 0);
    length("str_chars, an integer", tuple_str_chars(group + 3, 2), TUPLE_UNEXPECTED_MARK, 0x49, 0);
    character("chars_next", tuple_chars_next((const uint8_t[]){'a', 0xC2, 0xA3, 0}, 4, 1, false), 0, 1, 0xA3, 3, false);
    character("chars_next, end", tuple_chars_next((const uint8_t[]){'a', 0}, 2, 1, false), 0, 0, 0, 1, true);
    character("chars_next, cut", tuple_chars_next((const uint8_t[]){'a'}, 1, 1, false), TUPLE_UNEXPECTED_EOF, 0, 0, 1, true);

    puts(wrong ? "the answers' layout differs" : "the answers' layout agrees");
    return wrong != 0;
}
