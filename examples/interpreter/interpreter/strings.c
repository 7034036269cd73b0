/* Strings, and errors that a script raises itself. */
#include "lisp.h"

#include <ctype.h>
#include <stdlib.h>
#include <string.h>

enum { LONGEST = 2000 };

static char room[LONGEST];

static lisp append(lisp arguments) {
    size_t length = 0;
    for (; arguments->kind == PAIR; arguments = arguments->rest) {
        lisp part = string_in(arguments->first);
        if (part->length >= sizeof room - length) {
            fail("a string of over %d letters", LONGEST);
        }
        memcpy(room + length, part->text, part->length);
        length += part->length;
    }
    return string(room, length);
}

static lisp length(lisp arguments) { return number((double)string_in(arguments->first)->length); }

/* (substring text from to), to not included */
static lisp substring(lisp arguments) {
    lisp text = string_in(arguments->first);
    double from = number_in(arguments->rest->first), to = number_in(arguments->rest->rest->first);
    if (!(0 <= from && from <= to && to <= (double)text->length)) {
        fail("no such part of a string");
    }
    return string(text->text + (size_t)from, (size_t)to - (size_t)from);
}

static lisp changed(lisp arguments, int (*letter)(int)) {
    lisp text = string_in(arguments->first), made = string(text->text, text->length);
    for (size_t i = 0; i < made->length; i++) {
        made->text[i] = (char)letter((unsigned char)made->text[i]);
    }
    return made;
}

static lisp upper(lisp arguments) { return changed(arguments, toupper); }
static lisp lower(lisp arguments) { return changed(arguments, tolower); }

static lisp find(lisp arguments) {
    lisp text = string_in(arguments->first);
    char *at = strstr(text->text, string_in(arguments->rest->first)->text);
    return at == NULL ? NIL_LISP : number((double)(at - text->text));
}

static lisp is_before(lisp arguments) {
    return truth(strcmp(string_in(arguments->first)->text, string_in(arguments->rest->first)->text) < 0);
}

static lisp to_number(lisp arguments) {
    lisp text = string_in(arguments->first);
    char *end;
    double value = strtod(text->text, &end);
    return text->length > 0 && *end == 0 ? number(value) : NIL_LISP;
}

static lisp to_string(lisp arguments) {
    size_t written = write_value(arguments->first, room, sizeof room, false);
    return string(room, written);
}

static lisp error(lisp arguments) { fail("%.100s", string_in(arguments->first)->text); }

static const struct {
    const char *name;
    builtin *call;
    int least, most;
} strings[] = {
    {"string-append", append, 0, -1}, {"string-length", length, 1, 1}, {"substring", substring, 3, 3},
    {"string-upcase", upper, 1, 1}, {"string-downcase", lower, 1, 1}, {"string-find", find, 2, 2},
    {"string<?", is_before, 2, 2}, {"string->number", to_number, 1, 1}, {"to-string", to_string, 1, 1},
    {"error", error, 1, 1},
};

void define_strings(void) {
    for (size_t i = 0; i < sizeof strings / sizeof *strings; i++) {
        define(strings[i].name, strings[i].call, strings[i].least, strings[i].most);
    }
}
