/* Reading expressions, and writing values. */
#include "lisp.h"

#include <ctype.h>
#include <math.h>
#include <stdio.h>
#include <stdlib.h>
#include <string.h>

enum { DEEPEST = 60 };

static int depth;

static lisp read_inner(const char **at);

static void skip(const char **at) {
    while (isspace((unsigned char)**at) || **at == ';') {
        if (**at == ';') {
            *at += strcspn(*at, "\n");
        } else {
            ++*at;
        }
    }
}

static lisp read_string(const char **at) {
    const char *start = ++*at;
    while (**at != '"' && **at != 0) {
        ++*at;
    }
    if (**at == 0) {
        fail("a string has no end");
    }
    lisp made = string(start, (size_t)(*at - start));
    ++*at;
    return made;
}

static lisp read_list(const char **at) {
    lisp items = NIL_LISP;
    if (++depth > DEEPEST) {
        fail("lists stand too deep in each other");
    }
    ++*at;
    for (skip(at); **at != ')'; skip(at)) {
        lisp item = read_inner(at);
        if (item == NULL) {
            fail("a list has no end");
        }
        items = pair(item, items);
    }
    ++*at;
    depth--;
    return reversed(items);
}

static lisp read_word(const char **at) {
    size_t length = strcspn(*at, " \t\r\n()\";'");
    bool has_digit = strcspn(*at, "0123456789") < length;
    char *end;
    double value = strtod(*at, &end);
    lisp made = has_digit && end == *at + length ? number(value) : symbol(*at, length);
    *at += length;
    return made;
}

static lisp read_inner(const char **at) {
    skip(at);
    switch (**at) {
    case 0:
        return NULL;
    case '(':
        return read_list(at);
    case ')':
        fail("a parenthesis too many");
    case '"':
        return read_string(at);
    case '\'':
        ++*at;
        lisp quoted = read_inner(at);
        if (quoted == NULL) {
            fail("nothing is quoted");
        }
        return pair(symbol("quote", 5), pair(quoted, NIL_LISP));
    default:
        return read_word(at);
    }
}

lisp read_next(const char **at) {
    depth = 0;
    return read_inner(at);
}

/* ---- writing */

struct text {
    char *at;
    size_t room, length;
};

static void put(struct text *text, const char *what) {
    for (; *what != 0; what++) {
        if (text->length + 1 < text->room) {
            text->at[text->length++] = *what;
        }
    }
}

static void put_value(struct text *text, lisp value, bool quoted);

static void put_list(struct text *text, lisp value) {
    put(text, "(");
    put_value(text, value->first, true);
    for (value = value->rest; value->kind == PAIR; value = value->rest) {
        put(text, " ");
        put_value(text, value->first, true);
    }
    if (value->kind != NIL) {
        put(text, " . ");
        put_value(text, value, true);
    }
    put(text, ")");
}

static void put_number(struct text *text, double number) {
    char digits[40];
    if (-1e9 < number && number < 1e9 && number == (long)number) {
        snprintf(digits, sizeof digits, "%ld", (long)number);
    } else {
        snprintf(digits, sizeof digits, "%.15g", number);
    }
    put(text, digits);
}

static void put_value(struct text *text, lisp value, bool quoted) {
    switch (value->kind) {
    case NIL:
        put(text, "()");
        break;
    case NUMBER:
        put_number(text, value->number);
        break;
    case STRING:
        put(text, quoted ? "\"" : "");
        put(text, value->text);
        put(text, quoted ? "\"" : "");
        break;
    case SYMBOL:
        put(text, value->name);
        break;
    case PAIR:
        put_list(text, value);
        break;
    case BUILTIN:
        put(text, "<");
        put(text, value->called);
        put(text, ">");
        break;
    case FUNCTION:
        put(text, "<function>");
        break;
    }
}

size_t write_value(lisp value, char *at, size_t room, bool quoted) {
    struct text text = {at, room, 0};
    put_value(&text, value, quoted);
    at[text.length] = 0;
    return text.length;
}
