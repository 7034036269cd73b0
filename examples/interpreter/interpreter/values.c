/* The values of the Lisp, how they are made, and how they are given back. */
#include "lisp.h"

#include <stdarg.h>
#include <stdio.h>
#include <stdlib.h>
#include <string.h>

struct value nil_value = {.kind = NIL};
jmp_buf *handler;
char message[160];

static lisp newest, symbols;

_Noreturn void fail(const char *format, ...) {
    va_list rest;
    va_start(rest, format);
    vsnprintf(message, sizeof message, format, rest);
    va_end(rest);
    longjmp(*handler, 1);
}

static lisp make(enum kind kind) {
    lisp made = calloc(1, sizeof *made);
    if (made == NULL) {
        fail("out of memory");
    }
    made->kind = kind;
    made->older = newest;
    newest = made;
    return made;
}

lisp number(double is) {
    lisp made = make(NUMBER);
    made->number = is;
    return made;
}

lisp string(const char *text, size_t length) {
    lisp made = make(STRING);
    made->text = malloc(length + 1);
    if (made->text == NULL) {
        fail("out of memory");
    }
    memcpy(made->text, text, length);
    made->text[length] = 0;
    made->length = length;
    return made;
}

lisp symbol(const char *name, size_t length) {
    for (lisp known = symbols; known != NULL; known = known->next) {
        if (known->name[0] == name[0] && strlen(known->name) == length && memcmp(known->name, name, length) == 0) {
            return known;
        }
    }
    char *copy = malloc(length + 1);
    lisp made = calloc(1, sizeof *made);
    if (made == NULL || copy == NULL) {
        free(copy);
        free(made);
        fail("out of memory");
    }
    memcpy(copy, name, length);
    copy[length] = 0;
    made->kind = SYMBOL;
    made->name = copy;
    made->next = symbols;
    symbols = made;
    return made;
}

lisp pair(lisp first, lisp rest) {
    lisp made = make(PAIR);
    made->first = first;
    made->rest = rest;
    return made;
}

lisp builtin_value(const char *name, builtin *call, int least, int most) {
    lisp made = make(BUILTIN);
    made->called = name;
    made->call = call;
    made->least = least;
    made->most = most;
    return made;
}

lisp function(lisp parameters, lisp body, lisp scope) {
    lisp made = make(FUNCTION);
    made->parameters = parameters;
    made->body = body;
    made->scope = scope;
    return made;
}

lisp truth(bool is) {
    static lisp known;
    if (known == NULL) {
        known = symbol("true", 4);
    }
    return is ? known : NIL_LISP;
}

bool is_true(lisp value) { return value->kind != NIL; }

bool is_equal(lisp one, lisp other) {
    for (; one->kind == PAIR && other->kind == PAIR; one = one->rest, other = other->rest) {
        if (!is_equal(one->first, other->first)) {
            return false;
        }
    }
    if (one->kind != other->kind) {
        return false;
    }
    if (one->kind == NUMBER) {
        return one->number == other->number;
    }
    if (one->kind == STRING) {
        return one->length == other->length && memcmp(one->text, other->text, one->length) == 0;
    }
    return one == other;
}

size_t length_of(lisp list) {
    size_t length = 0;
    for (; list->kind == PAIR; list = list->rest) {
        length++;
    }
    return length;
}

lisp reversed(lisp list) {
    lisp made = NIL_LISP;
    for (; list->kind == PAIR; list = list->rest) {
        made = pair(list->first, made);
    }
    return made;
}

/* ---- memory */

static void mark(lisp value) {
    while (value != NULL && !value->marked) {
        value->marked = true;
        if (value->kind == PAIR) {
            mark(value->first);
            value = value->rest;
        } else if (value->kind == FUNCTION) {
            mark(value->parameters);
            mark(value->scope);
            value = value->body;
        }
    }
}

void collect(void) {
    for (lisp known = symbols; known != NULL; known = known->next) {
        mark(known->global);
    }
    lisp *at = &newest;
    while (*at != NULL) {
        lisp value = *at;
        if (value->marked) {
            value->marked = false;
            at = &value->older;
        } else {
            *at = value->older;
            if (value->kind == STRING) {
                free(value->text);
            }
            free(value);
        }
    }
    nil_value.marked = false;
    for (lisp known = symbols; known != NULL; known = known->next) {
        known->marked = false;
    }
}
