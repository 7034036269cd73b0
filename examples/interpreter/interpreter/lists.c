/* Pairs and lists. */
#include "lisp.h"

static lisp one(lisp value) { return pair(value, NIL_LISP); }

static lisp pair_in(lisp value, const char *what) {
    if (value->kind != PAIR) {
        fail("%s of no pair", what);
    }
    return value;
}

static lisp cons(lisp arguments) { return pair(arguments->first, arguments->rest->first); }
static lisp car(lisp arguments) { return pair_in(arguments->first, "car")->first; }
static lisp cdr(lisp arguments) { return pair_in(arguments->first, "cdr")->rest; }
static lisp list(lisp arguments) { return arguments; }
static lisp length(lisp arguments) { return number((double)length_of(list_in(arguments->first))); }
static lisp reverse(lisp arguments) { return reversed(list_in(arguments->first)); }
static lisp is_null(lisp arguments) { return truth(arguments->first->kind == NIL); }
static lisp is_pair(lisp arguments) { return truth(arguments->first->kind == PAIR); }
static lisp is_number(lisp arguments) { return truth(arguments->first->kind == NUMBER); }
static lisp is_string(lisp arguments) { return truth(arguments->first->kind == STRING); }
static lisp not(lisp arguments) { return truth(!is_true(arguments->first)); }
static lisp equal(lisp arguments) { return truth(is_equal(arguments->first, arguments->rest->first)); }

static lisp append(lisp arguments) {
    lisp made = NIL_LISP;
    for (; arguments->kind == PAIR; arguments = arguments->rest) {
        for (lisp at = list_in(arguments->first); at->kind == PAIR; at = at->rest) {
            made = pair(at->first, made);
        }
    }
    return reversed(made);
}

/* The whole numbers from one to another. */
static lisp range(lisp arguments) {
    double from = number_in(arguments->first);
    lisp made = NIL_LISP;
    for (double at = number_in(arguments->rest->first); at >= from; at--) {
        made = pair(number(at), made);
    }
    return made;
}

static lisp map(lisp arguments) {
    lisp made = NIL_LISP;
    for (lisp at = list_in(arguments->rest->first); at->kind == PAIR; at = at->rest) {
        made = pair(apply(arguments->first, one(at->first)), made);
    }
    return reversed(made);
}

static lisp filter(lisp arguments) {
    lisp made = NIL_LISP;
    for (lisp at = list_in(arguments->rest->first); at->kind == PAIR; at = at->rest) {
        if (is_true(apply(arguments->first, one(at->first)))) {
            made = pair(at->first, made);
        }
    }
    return reversed(made);
}

/* (fold f start list): f of the start and the first, f of that and the second, and so on. */
static lisp fold(lisp arguments) {
    lisp value = arguments->rest->first;
    for (lisp at = list_in(arguments->rest->rest->first); at->kind == PAIR; at = at->rest) {
        value = apply(arguments->first, pair(value, one(at->first)));
    }
    return value;
}

static lisp apply_list(lisp arguments) { return apply(arguments->first, list_in(arguments->rest->first)); }

static lisp merged(lisp is_before, lisp left, lisp right) {
    lisp made = NIL_LISP;
    while (left->kind == PAIR || right->kind == PAIR) {
        bool from_right = left->kind != PAIR
                          || (right->kind == PAIR && is_true(apply(is_before, pair(right->first, one(left->first)))));
        lisp *from = from_right ? &right : &left;
        made = pair((*from)->first, made);
        *from = (*from)->rest;
    }
    return reversed(made);
}

static lisp sorted(lisp is_before, lisp values, size_t count) {
    if (count < 2) {
        return count == 0 ? NIL_LISP : one(values->first);
    }
    lisp middle = values;
    for (size_t i = 0; i < count / 2; i++) {
        middle = middle->rest;
    }
    return merged(is_before, sorted(is_before, values, count / 2), sorted(is_before, middle, count - count / 2));
}

static lisp sort(lisp arguments) {
    lisp values = list_in(arguments->rest->first);
    return sorted(arguments->first, values, length_of(values));
}

static lisp assoc(lisp arguments) {
    for (lisp at = list_in(arguments->rest->first); at->kind == PAIR; at = at->rest) {
        if (at->first->kind == PAIR && is_equal(at->first->first, arguments->first)) {
            return at->first;
        }
    }
    return NIL_LISP;
}

static const struct {
    const char *name;
    builtin *call;
    int least, most;
} lists[] = {
    {"cons", cons, 2, 2}, {"car", car, 1, 1}, {"cdr", cdr, 1, 1}, {"list", list, 0, -1}, {"length", length, 1, 1},
    {"reverse", reverse, 1, 1}, {"append", append, 0, -1}, {"range", range, 2, 2}, {"map", map, 2, 2},
    {"filter", filter, 2, 2}, {"fold", fold, 3, 3}, {"apply", apply_list, 2, 2}, {"sort", sort, 2, 2},
    {"assoc", assoc, 2, 2}, {"null?", is_null, 1, 1}, {"pair?", is_pair, 1, 1}, {"number?", is_number, 1, 1},
    {"string?", is_string, 1, 1}, {"not", not, 1, 1}, {"equal?", equal, 2, 2},
};

void define_lists(void) {
    for (size_t i = 0; i < sizeof lists / sizeof *lists; i++) {
        define(lists[i].name, lists[i].call, lists[i].least, lists[i].most);
    }
}
