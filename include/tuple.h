/* Order-preserving tuple keys: the library's calls from C (x86-64). Link libtuple.a, which `tools/library.sh` writes to target/staticlib/.
 *
 * A slice is a pointer and a length in elements; an empty one may have any pointer. Three things are the caller's, and nothing checks them:
 *   - a buffer that is written overlaps no other slice of its call: with a pool inside its buffer, tuple_replace may answer 0 and leave a key that is not the value's;
 *   - a pointer is aligned as its type in C asks (uint32_t *, uint64_t *);
 *   - the thread has 160 KB of stack left: no call takes more.
 * Every call is total: it answers, or refuses with a number and a detail. An accepted answer has refusal 0 and detail 0. A refused one has 0 in every field
 * but refusal, detail, the values begun and a cursor or reader, and then no byte of a lent buffer has changed. An accepted call leaves what it does not write as it was.
 * No call allocates, or keeps anything for the next. Of the C library the archive has memcpy and memmove alone.
 *
 * A type sheet is a list of words, outermost first: 1 Int; 2 Str; 3 Bytes; 4 P, a reference to predicate P; 5 n and n types, a record; 6 n and n pairs of a
 * discriminant and a type, a union; 7 T, an optional T, which is not itself optional: Null fits it, and is 00 at depth 0 and 00 FF in a group
 * (theorem blanks, crates/format/proofs/Blank.antt). It has at most 4,096 words. A value sheet is a list of words and a pool of bytes: 0 Null; 1 w Int, a two's complement word;
 * 2 len Str and 3 len Bytes, whose bytes stand in the pool in order; 4 raw, a reference (tuple_fact_id makes its raw number from predicate and sequence); 5 n and
 * n values, a record; 6 disc and one value, a union, disc below 2^32.
 * It has at most 1,048,576 words and as many pool bytes. Both nest at most 320 groups (records and unions) and are used up exactly; a Str is UTF-8. */
#ifndef TUPLE_H
#define TUPLE_H
#include <stdbool.h>
#include <stddef.h>
#include <stdint.h>
#ifdef __cplusplus
extern "C" {
#define TUPLE_ASSERT static_assert
#else
#define TUPLE_ASSERT _Static_assert
#endif

enum {
    TUPLE_OK = 0,
    TUPLE_UNEXPECTED_EOF = 1,        /* the bytes end where more are due */
    TUPLE_UNEXPECTED_MARK = 2,       /* a byte that cannot stand here, or bytes left over; detail: the byte met */
    TUPLE_UNEXPECTED_TERMINATOR = 3, /* a 00 without the FF that is required */
    TUPLE_BAD_STRING = 4,            /* not UTF-8 (RFC 3629) */
    TUPLE_BAD_INTEGER = 5,           /* not the shortest form */
    TUPLE_BAD_RECORD = 6,            /* the wrong number of fields, or a group opened at depth 256 */
    TUPLE_KEY_TOO_LONG = 7,          /* a key over 65,531 bytes; detail: its length */
    TUPLE_FACT_REF_PREDICATE = 8,    /* a reference to another predicate than the type's (see tuple_fact_id); detail: the predicate found */
    TUPLE_RESERVED_FACT_ID = 9,      /* a reference with sequence 0 */
    TUPLE_UNKNOWN_DISCRIMINANT = 10, /* the union type has no such alternative; detail: the tag */
    TUPLE_TYPE_MISMATCH = 11,        /* a value of another kind than its type; detail: the type's kind, that behind a 7 */
    TUPLE_BAD_UNION = 12,            /* a 6 or 11 within a union; detail: the innermost such union's tag */
    TUPLE_OVERFLOW = 13,             /* an integer above 2^63 - 1 */
    TUPLE_UNDERFLOW = 14,            /* an integer below -2^63 */
    TUPLE_BAD_TYPE = 15,             /* a type sheet that is not admitted */
    TUPLE_BAD_VALUE = 16,            /* a value sheet that is not admitted */
    TUPLE_NO_ROOM = 17,              /* a lent buffer is short; detail: the units needed */
    TUPLE_NO_FIELD = 18,             /* no such field, none behind the first k, none that begins with bytes, a count over the type's, or not a record type (`7 5 ..` is none) */
    TUPLE_NO_BOUND = 19,             /* strinc: no byte string is above all that begin with the prefix */
    TUPLE_BAD_LINE = 20              /* the program keylist alone: a line that is no key */
};

/* ---- references: the raw number has a predicate in its high 24 bits and a sequence in its low 40. Sequence 0 is reserved (9). A type may name any 32-bit
 * predicate; one of 2^24 or more matches no reference (8, with the predicate found). */

#define TUPLE_SEQUENCE_BITS 40

/* the raw number for a predicate below 2^24 and a sequence from 1 to 2^40 - 1; 0 where there is none, which as a value is refused (9) */
static inline uint64_t tuple_fact_id(uint32_t predicate, uint64_t sequence) {
    bool none = predicate >> (64 - TUPLE_SEQUENCE_BITS) != 0 || sequence == 0 || sequence >> TUPLE_SEQUENCE_BITS != 0;
    return none ? 0 : (uint64_t)predicate << TUPLE_SEQUENCE_BITS | sequence;
}
/* the two halves of a raw number */
static inline uint32_t tuple_fact_predicate(uint64_t raw) {
    return (uint32_t)(raw >> TUPLE_SEQUENCE_BITS);
}
static inline uint64_t tuple_fact_sequence(uint64_t raw) {
    return raw & ((UINT64_C(1) << TUPLE_SEQUENCE_BITS) - 1);
}

/* ---- answers */

/* bytes written, an end, a place or a used length */
typedef struct { uint32_t refusal; uint64_t detail; uint64_t length; } tuple_length;
/* bytes written, and how many zeros were escaped in them */
typedef struct { uint32_t refusal; uint64_t detail; uint64_t length; uint64_t zeros; } tuple_encoded;
/* the values begun, the refusing one included (also where refused); the words and pool bytes written */
typedef struct { uint32_t refusal; uint64_t detail; uint64_t begun; uint64_t words; uint64_t pool; } tuple_sheet;
/* the lengths of a lower and an upper end */
typedef struct { uint32_t refusal; uint64_t detail; uint64_t lower; uint64_t upper; } tuple_ends;
/* -1 less, 0 equal, 1 greater */
typedef struct { uint32_t refusal; uint64_t detail; int32_t order; } tuple_order;
/* an integer (an Int as its word) and how many bytes it took */
typedef struct { uint32_t refusal; uint64_t detail; uint64_t value; uint64_t used; } tuple_number;
/* where a payload is, its length and how many bytes its field took; source 1: the bytes from `at` on; 2: the scratch buffer's beginning; 0: nowhere */
typedef struct { uint32_t refusal; uint64_t detail; uint32_t source; uint64_t at; uint64_t len; uint64_t used; } tuple_part;
/* a value (0 where the step has none), and the cursor behind it; where refused, the cursor given */
typedef struct { uint32_t refusal; uint64_t detail; uint64_t value; uint64_t at; uint64_t depth; } tuple_step;
/* where a payload is, its length, and the cursor behind its field; source 1: the bytes from `part` on; 2: the scratch buffer's beginning; 0: nowhere */
typedef struct { uint32_t refusal; uint64_t detail; uint32_t source; uint64_t part; uint64_t len; uint64_t at; uint64_t depth; } tuple_part_step;
/* given 1: the character `code`; given 0 without a refusal: the end; and the reader's place and flag after the step */
typedef struct { uint32_t refusal; uint64_t detail; uint32_t given; uint32_t code; uint64_t at; bool done; } tuple_char;

TUPLE_ASSERT(sizeof(tuple_length) == 24 && offsetof(tuple_length, detail) == 8 && offsetof(tuple_length, length) == 16, "tuple_length");
TUPLE_ASSERT(sizeof(tuple_encoded) == 32 && offsetof(tuple_encoded, length) == 16 && offsetof(tuple_encoded, zeros) == 24, "tuple_encoded");
TUPLE_ASSERT(sizeof(tuple_sheet) == 40 && offsetof(tuple_sheet, begun) == 16 && offsetof(tuple_sheet, words) == 24 && offsetof(tuple_sheet, pool) == 32, "tuple_sheet");
TUPLE_ASSERT(sizeof(tuple_ends) == 32 && offsetof(tuple_ends, lower) == 16 && offsetof(tuple_ends, upper) == 24, "tuple_ends");
TUPLE_ASSERT(sizeof(tuple_order) == 24 && offsetof(tuple_order, order) == 16, "tuple_order");
TUPLE_ASSERT(sizeof(tuple_number) == 32 && offsetof(tuple_number, value) == 16 && offsetof(tuple_number, used) == 24, "tuple_number");
TUPLE_ASSERT(sizeof(tuple_part) == 48 && offsetof(tuple_part, source) == 16 && offsetof(tuple_part, at) == 24 && offsetof(tuple_part, len) == 32 && offsetof(tuple_part, used) == 40, "tuple_part");
TUPLE_ASSERT(sizeof(tuple_step) == 40 && offsetof(tuple_step, value) == 16 && offsetof(tuple_step, at) == 24 && offsetof(tuple_step, depth) == 32, "tuple_step");
TUPLE_ASSERT(sizeof(tuple_part_step) == 56 && offsetof(tuple_part_step, source) == 16 && offsetof(tuple_part_step, part) == 24 && offsetof(tuple_part_step, len) == 32 && offsetof(tuple_part_step, at) == 40 && offsetof(tuple_part_step, depth) == 48, "tuple_part_step");
TUPLE_ASSERT(sizeof(tuple_char) == 40 && offsetof(tuple_char, given) == 16 && offsetof(tuple_char, code) == 20 && offsetof(tuple_char, at) == 24 && offsetof(tuple_char, done) == 32, "tuple_char");
TUPLE_ASSERT(sizeof(size_t) == 8 && sizeof(bool) == 1, "the library is for x86-64");

/* ---- encoding: a value under a type, at the output buffer's beginning. length: the bytes written; zeros: how many zeros were escaped, which is
 * the number of zero bytes in the pool (theorem zeros_escaped, crates/format/proofs/ZeroLaws.antt).
 * Refusals in order: 15, 16, the value's (6, 8, 9, 10, 11, 12), for a key 7, then 17. */

/* a top record is a group */
tuple_encoded tuple_encode_typed(const uint32_t *type, size_t type_len, const uint64_t *words, size_t words_len, const uint8_t *pool, size_t pool_len, uint8_t *out, size_t out_len);
/* a key: a top record's fields stand bare, and it has at most 65,531 bytes */
tuple_encoded tuple_encode_key(const uint32_t *type, size_t type_len, const uint64_t *words, size_t words_len, const uint8_t *pool, size_t pool_len, uint8_t *out, size_t out_len);

/* ---- decoding: the value sheet goes to the beginnings of the words' and the pool's buffer.
 * Refusals in order: 15, the key's (1, 2, 4, 5, 6, 8, 9, 10, 13, 14), then 17: words if they are short, else pool bytes. */

tuple_sheet tuple_decode_typed(const uint32_t *type, size_t type_len, const uint8_t *bytes, size_t bytes_len, uint64_t *words, size_t words_len, uint8_t *pool, size_t pool_len);
tuple_sheet tuple_decode_key(const uint32_t *type, size_t type_len, const uint8_t *bytes, size_t bytes_len, uint64_t *words, size_t words_len, uint8_t *pool, size_t pool_len);
/* decode_key keeping no value: never 17, words and pool are 0 */
tuple_sheet tuple_check_key(const uint32_t *type, size_t type_len, const uint8_t *bytes, size_t bytes_len);

/* ---- keys */

/* length: the place behind the field that starts at `start`, found by its marks alone; refusals 1, 2, 3, 5, 6. A null at depth 0 is 00, or 00 FF where that is
 * required: a key's blank is passed with the flag off. */
tuple_length tuple_skip(const uint8_t *bytes, size_t bytes_len, size_t start, bool require_escape_null);
/* how two values compare: where they are of one type, as their keys do; refusal 16 */
tuple_order tuple_compare(const uint64_t *words_a, size_t words_a_len, const uint8_t *pool_a, size_t pool_a_len, const uint64_t *words_b, size_t words_b_len, const uint8_t *pool_b, size_t pool_b_len);
/* of all byte strings above every byte string that begins with the prefix, the least (theorem strinc_tight, crates/format/proofs/Ranges.antt);
 * refusals 19 (there is none), 17 */
tuple_length tuple_strinc(const uint8_t *prefix, size_t prefix_len, uint8_t *out, size_t out_len);
/* the key through a field with FF behind: above every key with the same fields up to there, and not above any key whose fields up to there are greater;
 * refusal 17 */
tuple_length tuple_above_field(const uint8_t *key, size_t key_len, uint8_t *out, size_t out_len);
/* the two ends of the keys of a record type with the same first k fields as this one; refusals in order: 15, 18, decode_key's, 17 (the lower end first) */
tuple_ends tuple_bounds(const uint32_t *type, size_t type_len, const uint8_t *key, size_t key_len, size_t k, uint8_t *lower, size_t lower_len, uint8_t *upper, size_t upper_len);
/* the two ends of a span on the next field. words and pool: the first k fields as one Record, k being its count. A key of the record type lies at or above the
 * lower end and below the upper one exactly when its first k fields are these and the next lies from the lowest to the highest, both ends included (theorem spans,
 * crates/format/proofs/Ranges.antt; of this call theorem exact_call, crates/tuple/proofs/RangeLaws.antt). A lowest above the highest is accepted: no key lies between.
 * The lower end is the k fields and the lowest, the upper the k fields, the highest and FF; either may be longer than a key, so there is no 7.
 * Refusals in order: 15; 16 of the three value sheets in turn, for the first also where it is no Record; 18 (no field behind the first k, or not a record type); the
 * values' (6, 8, 9, 10, 11, 12): the k fields, the lowest, the highest, each as a key's field; 17 (the lower end first). */
tuple_ends tuple_span(const uint32_t *type, size_t type_len, const uint64_t *words, size_t words_len, const uint8_t *pool, size_t pool_len, const uint64_t *lowest_words, size_t lowest_words_len, const uint8_t *lowest_pool, size_t lowest_pool_len, const uint64_t *highest_words, size_t highest_words_len, const uint8_t *highest_pool, size_t highest_pool_len, uint8_t *lower, size_t lower_len, uint8_t *upper, size_t upper_len);
/* the two ends of the keys whose next field begins with the bytes of start, as operators type the start of a name. words and pool: the first k fields as one Record, k
 * being its count. A key of the record type lies at or above the lower end and below the upper one exactly when its first k fields are these and the next, a Str, a
 * Bytes or an optional one of these, begins with the bytes of start, which a blank never does (theorem prefixes, crates/format/proofs/Ranges.antt; of this call
 * theorem prefix_call_lem, crates/tuple/proofs/RangeLaws.antt). start is bytes and no sheet: it may be empty, end in 00 or within a character, and has no limit of length.
 * The lower end is the k fields, the mark of the next and start with each 00 as 00 FF, without the end 00 of a field. The upper is strinc of the lower, so the least above
 * all that begin with it, and not longer; there always is one, since the mark is below FF: no 19. Either may be longer than a key, so there is no 7.
 * Refusals in order: 15; 16, also where the sheet is no Record; 18 (no field behind the first k, one of another kind, or not a record type), before any value is judged;
 * the k values' (6, 8, 9, 10, 11, 12), each as a key's field; 17 (the lower end first). */
tuple_ends tuple_starting_with(const uint32_t *type, size_t type_len, const uint64_t *words, size_t words_len, const uint8_t *pool, size_t pool_len, const uint8_t *start, size_t start_len, uint8_t *lower, size_t lower_len, uint8_t *upper, size_t upper_len);
/* puts a new value into a field, counted from 0, of the key in the buffer's first `used` bytes. length: the new used length; bytes past it keep what they held.
 * Refusals in order: 15, 18, 17 (used over the buffer), decode_key's, 16, encode_key's of the changed record with 7, 17. */
tuple_length tuple_replace(const uint32_t *type, size_t type_len, uint8_t *buffer, size_t buffer_len, size_t used, size_t field, const uint64_t *words, size_t words_len, const uint8_t *pool, size_t pool_len);

/* ---- single fields */

/* the Int at the beginning of the bytes; refusals 1, 2, 5, 13, 14 */
tuple_number tuple_get_i64(const uint8_t *bytes, size_t bytes_len);
/* an integer with a mark from 48 to 50; refusals 1, 2, 5 */
tuple_number tuple_get_u64(const uint8_t *bytes, size_t bytes_len);
/* the payload of a Str; the scratch buffer is written only where the payload holds a zero. Refusals 1, 2, 4, 17 */
tuple_part tuple_get_str(const uint8_t *bytes, size_t bytes_len, uint8_t *scratch, size_t scratch_len);
/* the payload of a Bytes; refusals 1, 2, 17 */
tuple_part tuple_get_bytes(const uint8_t *bytes, size_t bytes_len, uint8_t *scratch, size_t scratch_len);
/* a field from a place of the buffer on. length: the place behind it. Refusal 17 counts from the buffer's start; a place past the buffer is 17 with that place. */
tuple_length tuple_put_i64(uint8_t *out, size_t out_len, size_t at, uint64_t word);
tuple_length tuple_put_u64(uint8_t *out, size_t out_len, size_t at, uint64_t number);
/* refusal 4 comes before 17 */
tuple_length tuple_put_str(uint8_t *out, size_t out_len, size_t at, const uint8_t *text, size_t text_len);
tuple_length tuple_put_bytes(uint8_t *out, size_t out_len, size_t at, const uint8_t *payload, size_t payload_len);
/* a reference by its raw number, which is not checked */
tuple_length tuple_put_fact_id(uint8_t *out, size_t out_len, size_t at, uint64_t raw);

/* ---- the reading cursor: a place in the bytes and the number of open groups, both held by the caller; it starts at place 0 and depth 0.
 * After a refusal place and depth are those given. A place past the end reads as no bytes left, a depth over 256 as 256. */

/* a null: 00 at depth 0, 00 FF in a group; refusals 1, 2, 3. value 0 */
tuple_step tuple_take_null(const uint8_t *bytes, size_t bytes_len, size_t at, size_t depth);
/* an Int as its word; refusals of tuple_get_i64 */
tuple_step tuple_take_i64(const uint8_t *bytes, size_t bytes_len, size_t at, size_t depth);
/* refusals of tuple_get_u64 */
tuple_step tuple_take_u64(const uint8_t *bytes, size_t bytes_len, size_t at, size_t depth);
/* a reference to any predicate, as its raw number; refusals 1, 2, 9 */
tuple_step tuple_take_fact_id(const uint8_t *bytes, size_t bytes_len, size_t at, size_t depth);
/* the payload of a Str; refusals and scratch buffer as of tuple_get_str */
tuple_part_step tuple_take_str(const uint8_t *bytes, size_t bytes_len, size_t at, size_t depth, uint8_t *scratch, size_t scratch_len);
/* the payload of a Bytes; refusals and scratch buffer as of tuple_get_bytes */
tuple_part_step tuple_take_bytes(const uint8_t *bytes, size_t bytes_len, size_t at, size_t depth, uint8_t *scratch, size_t scratch_len);
/* a record's mark, one group deeper; refusals 1, 2, then 6 at depth 256. value 0 */
tuple_step tuple_open_record(const uint8_t *bytes, size_t bytes_len, size_t at, size_t depth);
/* a union's mark and its discriminant, one group deeper. value: the discriminant, any 64-bit number; refusals 1, 2, 5, then 6 at depth 256 */
tuple_step tuple_open_union(const uint8_t *bytes, size_t bytes_len, size_t at, size_t depth);
/* the end of the open group, one group less deep; refusals 6 at depth 0, whatever byte stands there, then 1, 2. value 0 */
tuple_step tuple_close(const uint8_t *bytes, size_t bytes_len, size_t at, size_t depth);
/* value 1: the open group ends here; at depth 0 none is open: value 0. used 0; refusal 1 */
tuple_number tuple_is_record_end(const uint8_t *bytes, size_t bytes_len, size_t at, size_t depth);

/* ---- the writing cursor: a place in the buffer and the number of open groups; otherwise as above. value 0. Refusal 17 counts from the buffer's start and comes
 * last; a place past the buffer is 17 with that place. The other fields are tuple_put_i64 to tuple_put_fact_id, which keep the depth. */

/* 00 at depth 0, 00 FF in a group */
tuple_step tuple_put_null(uint8_t *out, size_t out_len, size_t at, size_t depth);
/* opens a record; refusal 6 at depth 256 */
tuple_step tuple_put_record(uint8_t *out, size_t out_len, size_t at, size_t depth);
/* opens a union; refusal 6 at depth 256 */
tuple_step tuple_put_union(uint8_t *out, size_t out_len, size_t at, size_t depth, uint32_t disc);
/* ends the open group; refusal 6 at depth 0 */
tuple_step tuple_put_end(uint8_t *out, size_t out_len, size_t at, size_t depth);

/* ---- the string reader: a Str's characters one by one, its bytes, place and finished flag held by the caller. What a new reader has given so far is the
 * beginning of the name that tuple_get_str decodes from the same bytes, and the end comes right after its last character, also where tuple_get_str is short of
 * scratch (17). Where that refuses otherwise, a refusal comes before any end; its number may be another. Either comes within as many steps as there are bytes behind
 * the mark, and one (theorem scrolls, crates/tuple/proofs/ScrollLaws.antt). */

/* checks a Str's mark: the reader's bytes are those behind it, its first place is 0, and it is not finished. length 0; refusals 1, 2 */
tuple_length tuple_str_chars(const uint8_t *bytes, size_t bytes_len);
/* the next character; the end and a refusal (1, 4) leave the place and finish the reader, and a finished one gives only the end */
tuple_char tuple_chars_next(const uint8_t *bytes, size_t bytes_len, size_t at, bool done);

#undef TUPLE_ASSERT
#ifdef __cplusplus
}
#endif
#endif
