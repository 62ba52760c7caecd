/* A scanner of Active Oberon written by hand, to measure the proved one against.

   It has the same lexis as crates/aos_scan and makes the same tokens: kind, start, end, line, column and value.
   Its words are a file and how many times to scan it; it prints how many tokens it found in all. */
#include <stdint.h>
#include <stdio.h>
#include <stdlib.h>
#include <string.h>

enum { MOST = 1 << 20 };

enum kind {
    IDENT, NUMBER, CHARACTER, TEXT, END,
    KW_FIRST, /* the reserved words follow in the table's order */
    PLUS = 64, MINUS, STAR, SLASH, TILDE, AMPERSAND, PERIOD, COMMA, SEMICOLON, BAR, OPEN_PAREN, OPEN_BRACKET,
    OPEN_BRACE, CARET, EQUALS, NOT_EQUALS, LESS, LESS_EQUAL, GREATER, GREATER_EQUAL, BECOMES, COLON, RANGE,
    CLOSE_PAREN, CLOSE_BRACKET, CLOSE_BRACE
};

struct token {
    uint8_t kind;
    uint32_t start, end, line, col;
    int64_t value;
};

struct tokens {
    struct token *items;
    size_t count, room;
};

/* Sorted, so that the words of one first letter stand together. */
static const char *const reserved[] = {
    "ARRAY", "AWAIT", "BEGIN", "BY", "CASE", "CONST", "DIV", "DO", "ELSE", "ELSIF", "END", "EXIT", "FOR", "IF",
    "IMPORT", "IN", "IS", "LOOP", "MOD", "MODULE", "NIL", "OBJECT", "OF", "OR", "POINTER", "PROCEDURE", "RECORD",
    "REPEAT", "RETURN", "THEN", "TO", "TYPE", "UNTIL", "VAR", "WHILE", "WITH"
};
enum { RESERVED = sizeof reserved / sizeof *reserved };

enum { LETTER = 1, DIGIT = 2, HEX = 4, WORD = 8 };
static uint8_t class_of[256];
static uint8_t first_of[26], past_of[26], length_of[RESERVED];

static void make_tables(void) {
    for (int b = 0; b < 256; b++) {
        int letter = (b >= 'A' && b <= 'Z') || (b >= 'a' && b <= 'z');
        int digit = b >= '0' && b <= '9';
        int hex = digit || (b >= 'A' && b <= 'F');
        class_of[b] = letter * LETTER | digit * DIGIT | hex * HEX | (letter || digit || b == '_') * WORD;
    }
    for (int i = RESERVED - 1; i >= 0; i--) {
        int letter = reserved[i][0] - 'A';
        first_of[letter] = i;
        if (!past_of[letter]) past_of[letter] = i + 1;
        length_of[i] = strlen(reserved[i]);
    }
}

static enum kind word_kind(const uint8_t *word, size_t length) {
    if (word[0] < 'A' || word[0] > 'Z' || length < 2 || length > 9) return IDENT;
    int letter = word[0] - 'A';
    for (int i = first_of[letter]; i < past_of[letter]; i++)
        if (length_of[i] == length && memcmp(reserved[i], word, length) == 0) return KW_FIRST + i;
    return IDENT;
}

static int push(struct tokens *list, struct token token) {
    if (list->count == list->room) {
        size_t room = list->room ? 2 * list->room : 4;
        struct token *items = realloc(list->items, room * sizeof *items);
        if (!items) return 0;
        list->items = items;
        list->room = room;
    }
    list->items[list->count++] = token;
    return 1;
}

/* Whether the digits' value is at most `most`; the value is stored. */
static int value_of(const uint8_t *at, const uint8_t *end, uint64_t base, uint64_t most, int64_t *value) {
    uint64_t v = 0;
    for (; at < end; at++) {
        uint64_t digit = *at <= '9' ? *at - '0' : *at - 'A' + 10;
        if (v > (most - digit) / base) return 0;
        v = v * base + digit;
    }
    *value = v;
    return 1;
}

/* Whether the text of `length` bytes, with a zero after them, has a token list; it is stored. */
static int scan(const uint8_t *text, size_t length, struct tokens *list) {
    const uint8_t *at = text, *past = text + length, *line_start = text;
    uint32_t line = 1;
    for (;;) {
        /* blanks and comments */
        for (;;) {
            if (*at == '\n') {
                line++;
                line_start = ++at;
            } else if (*at == ' ' || *at == '\t' || *at == '\r') {
                at++;
            } else if (at[0] == '(' && at[1] == '*') {
                int depth = 1;
                at += 2;
                while (depth > 0) {
                    if (at >= past) return 0;
                    if (at[0] == '(' && at[1] == '*') {
                        depth++;
                        at += 2;
                    } else if (at[0] == '*' && at[1] == ')') {
                        depth--;
                        at += 2;
                    } else {
                        if (*at == '\n') {
                            line++;
                            line_start = at + 1;
                        }
                        at++;
                    }
                }
            } else {
                break;
            }
        }

        struct token token = { .start = at - text, .line = line, .col = at - line_start + 1 };
        if (at == past) {
            token.kind = END;
            token.end = token.start;
            return push(list, token);
        }
        const uint8_t *end = at + 1;
        uint8_t b = *at;
        if (class_of[b] & LETTER) {
            while (class_of[*end] & WORD) end++;
            token.kind = word_kind(at, end - at);
        } else if (class_of[b] & DIGIT) {
            while (class_of[*end] & HEX) end++;
            if (*end == 'H') {
                token.kind = NUMBER;
                if (!value_of(at, end, 16, INT64_MAX, &token.value)) return 0;
                end++;
            } else if (*end == 'X') {
                token.kind = CHARACTER;
                if (!value_of(at, end, 16, 0xff, &token.value)) return 0;
                end++;
            } else {
                token.kind = NUMBER;
                for (end = at + 1; class_of[*end] & DIGIT; end++) {}
                if (!value_of(at, end, 10, INT64_MAX, &token.value)) return 0;
            }
        } else {
            switch (b) {
            case '"':
            case '\'':
                while (*end != b && (*end == '\t' || (*end >= ' ' && *end <= '~'))) end++;
                if (*end != b) return 0;
                end++;
                token.kind = TEXT;
                break;
            case '+': token.kind = PLUS; break;
            case '-': token.kind = MINUS; break;
            case '*': token.kind = STAR; break;
            case '/': token.kind = SLASH; break;
            case '~': token.kind = TILDE; break;
            case '&': token.kind = AMPERSAND; break;
            case '.': token.kind = *end == '.' ? (end++, RANGE) : PERIOD; break;
            case ',': token.kind = COMMA; break;
            case ';': token.kind = SEMICOLON; break;
            case '|': token.kind = BAR; break;
            case '(': token.kind = OPEN_PAREN; break;
            case '[': token.kind = OPEN_BRACKET; break;
            case '{': token.kind = OPEN_BRACE; break;
            case '^': token.kind = CARET; break;
            case '=': token.kind = EQUALS; break;
            case '#': token.kind = NOT_EQUALS; break;
            case '<': token.kind = *end == '=' ? (end++, LESS_EQUAL) : LESS; break;
            case '>': token.kind = *end == '=' ? (end++, GREATER_EQUAL) : GREATER; break;
            case ':': token.kind = *end == '=' ? (end++, BECOMES) : COLON; break;
            case ')': token.kind = CLOSE_PAREN; break;
            case ']': token.kind = CLOSE_BRACKET; break;
            case '}': token.kind = CLOSE_BRACE; break;
            default: return 0;
            }
        }
        token.end = end - text;
        if (!push(list, token)) return 0;
        at = end;
    }
}

int main(int count, char **words) {
    if (count != 3) return 1;
    FILE *file = fopen(words[1], "rb");
    uint8_t *text = calloc(MOST + 2, 1);
    if (!file || !text) return 1;
    size_t length = fread(text, 1, MOST, file);
    if (ferror(file) || fgetc(file) != EOF) return 1;
    fclose(file);
    make_tables();
    uint64_t total = 0;
    for (unsigned long left = strtoul(words[2], NULL, 10); left > 0; left--) {
        struct tokens list = { 0 };
        if (!scan(text, length, &list)) return 1;
        total += list.count;
        free(list.items);
    }
    printf("%llu\n", (unsigned long long)total);
    return 0;
}
