/* A panel of eight cells that scrolls stored names by the string reader, one character a tick, with no buffer for the name; beside it the name that
 * tuple_get_str decodes. cc -I include examples/panel.c target/staticlib/libtuple.a -o target/panel && target/panel */
#include "tuple.h"
#include <inttypes.h>
#include <stdio.h>
#include <string.h>

enum { CELLS = 8 };

/* a character as UTF-8 */
static size_t utf8(uint32_t code, char *out) {
    static const uint32_t leads[] = {0x00, 0xC0, 0xE0, 0xF0};
    size_t behind = code < 0x80 ? 0 : code < 0x800 ? 1 : code < 0x10000 ? 2 : 3;
    out[0] = (char)(leads[behind] | code >> 6 * behind);
    for (size_t i = 1; i <= behind; i++) {
        out[i] = (char)(0x80 | (code >> 6 * (behind - i) & 0x3F));
    }
    return behind + 1;
}

/* the panel; a 00 has a sign of its own there */
static void show_cells(const uint32_t *cells, size_t n) {
    char text[4];
    printf(" |");
    for (size_t i = 0; i < n; i++) {
        uint32_t code = cells[i] == 0 ? 0x2400 : cells[i];
        printf("%.*s", (int)utf8(code, text), text);
    }
    printf("%*s|", (int)(CELLS - n), "");
}

/* One name: the panel after each tick, then how the reader ended. Gives the number of the characters' bytes. */
static size_t scroll(const uint8_t *bytes, size_t len, char *shown) {
    tuple_length opened = tuple_str_chars(bytes, len);
    if (opened.refusal != TUPLE_OK) {
        printf(" no name: refused %" PRIu32 "\n", opened.refusal);
        return 0;
    }
    uint32_t cells[CELLS];
    size_t n = 0, used = 0;
    tuple_char step = {.at = 0, .done = false};
    for (;;) {
        step = tuple_chars_next(bytes + 1, len - 1, step.at, step.done);
        if (step.given == 0) {
            break;
        }
        if (n == CELLS) {
            memmove(cells, cells + 1, (CELLS - 1) * sizeof cells[0]);
            n--;
        }
        cells[n++] = step.code;
        used += utf8(step.code, shown + used);
        show_cells(cells, n);
    }
    if (step.refusal == TUPLE_OK) {
        printf(" end\n");
    } else {
        printf(" refused %" PRIu32 "\n", step.refusal);
    }
    return used;
}

/* The bytes of a name that tuple_get_str decodes, beside those that the panel showed. */
static void name(const uint8_t *bytes, size_t len, size_t room) {
    char shown[64];
    uint8_t scratch[32];
    size_t used = scroll(bytes, len, shown);
    tuple_part part = tuple_get_str(bytes, len, scratch, room);
    if (part.refusal != TUPLE_OK) {
        printf("   get_str: refused %" PRIu32 ", detail %" PRIu64 "\n", part.refusal, part.detail);
        return;
    }
    const uint8_t *payload = part.source == 1 ? bytes + part.at : scratch;
    printf("   get_str: %" PRIu64 " bytes, those shown: %s\n", part.len, used == part.len && memcmp(payload, shown, used) == 0 ? "yes" : "NO");
}

#define NAME(text, room) name((const uint8_t *)(text), sizeof(text) - 1, room)

int main(void) {
    NAME("\x21" "cyan\0", 32);
    NAME("\x21" "cyan blue 5 \xC2\xB5m\0\x49\x07", 32);     /* a key goes on behind the name */
    NAME("\x21" "20 \xE2\x82\xAC \xF0\x9F\x8E\xA8\0", 32);
    NAME("\x21" "ink\0\xFF" "A\0", 32);                    /* an escaped zero */
    NAME("\x21" "ink\0\xFF" "A\0", 4);                     /* the panel needs no room for it */
    NAME("\x21" "\0", 32);
    NAME("\x21" "cyan \xC2\0\xFF\xB5\0", 32);              /* an escape within a character */
    NAME("\x21" "cy\xE2\0", 32);                           /* a character cut short: other numbers, refused by both */
    NAME("\x21" "cyan", 32);                               /* no end */
    NAME("\x53" "cyan\0", 32);
    return 0;
}
