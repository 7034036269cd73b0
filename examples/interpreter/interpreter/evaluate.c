/* Evaluation. A call in last place needs no stack, so a loop may be a function that calls itself there; every other
   call does. Each expression is a step, and a script has as many as its client gives it. */
#include "lisp.h"

#include <string.h>

unsigned long steps_left, steps_given;

static lisp QUOTE, IF, COND, ELSE, DEFINE, LAMBDA, LET, BEGIN, AND, OR, SET, WHILE, TRY;

void define_forms(void) {
    QUOTE = symbol("quote", 5);
    IF = symbol("if", 2);
    COND = symbol("cond", 4);
    ELSE = symbol("else", 4);
    DEFINE = symbol("define", 6);
    LAMBDA = symbol("lambda", 6);
    LET = symbol("let", 3);
    BEGIN = symbol("begin", 5);
    AND = symbol("and", 3);
    OR = symbol("or", 2);
    SET = symbol("set!", 4);
    WHILE = symbol("while", 5);
    TRY = symbol("try", 3);
    symbol("true", 4)->global = symbol("true", 4);
    symbol("false", 5)->global = NIL_LISP;
}

static lisp item(lisp list, int index) {
    for (; index > 0 && list->kind == PAIR; index--) {
        list = list->rest;
    }
    if (list->kind != PAIR) {
        fail("something is missing in a form");
    }
    return list->first;
}

/* The pair of a name and its value, nearest first. */
static lisp binding(lisp name, lisp scope) {
    for (; scope->kind == PAIR; scope = scope->rest) {
        if (scope->first->first == name) {
            return scope->first;
        }
    }
    return NULL;
}

static lisp value_of(lisp name, lisp scope) {
    lisp found = binding(name, scope);
    lisp value = found != NULL ? found->rest : name->global;
    if (value == NULL) {
        fail("%s is not defined", name->name);
    }
    return value;
}

static void set_value(lisp name, lisp value, lisp scope) {
    lisp found = name->kind == SYMBOL ? binding(name, scope) : NULL;
    if (found != NULL) {
        found->rest = value;
    } else if (name->kind == SYMBOL && name->global != NULL) {
        name->global = value;
    } else {
        fail("what is set has to be defined");
    }
}

static lisp bind(lisp names, lisp values, lisp scope) {
    for (; names->kind == PAIR && values->kind == PAIR; names = names->rest, values = values->rest) {
        scope = pair(pair(names->first, values->first), scope);
    }
    if (names->kind == SYMBOL) {
        return pair(pair(names, values), scope);
    }
    if (names->kind != NIL || values->kind != NIL) {
        fail("a function was called with a wrong number of values");
    }
    return scope;
}

static lisp define_form(lisp rest, lisp scope) {
    lisp name = item(rest, 0), value;
    if (name->kind == PAIR) { /* (define (name parameters ..) body ..) */
        value = function(name->rest, rest->rest, scope);
        name = name->first;
    } else {
        value = evaluate(item(rest, 1), scope);
    }
    if (name->kind != SYMBOL) {
        fail("what is defined is a name");
    }
    name->global = value;
    return name;
}

static lisp let_scope(lisp bindings, lisp scope) {
    lisp inner = scope;
    for (; bindings->kind == PAIR; bindings = bindings->rest) {
        inner = pair(pair(item(bindings->first, 0), evaluate(item(bindings->first, 1), scope)), inner);
    }
    return inner;
}

/* (try expression otherwise): what the expression comes to, or if it fails, `otherwise` called with the message. */
static lisp try_form(lisp rest, lisp scope) {
    jmp_buf here, *volatile outer = handler;
    handler = &here;
    if (setjmp(here) == 0) {
        lisp value = evaluate(item(rest, 0), scope);
        handler = outer;
        return value;
    }
    handler = outer;
    lisp text = string(message, strlen(message));
    return apply(evaluate(item(rest, 1), scope), pair(text, NIL_LISP));
}

static lisp while_form(lisp rest, lisp scope) {
    lisp value = NIL_LISP;
    while (is_true(evaluate(item(rest, 0), scope))) {
        for (lisp body = rest->rest; body->kind == PAIR; body = body->rest) {
            value = evaluate(body->first, scope);
        }
    }
    return value;
}

/* All of a body but its last expression, which is given back. */
static lisp all_but_last(lisp body, lisp scope) {
    if (body->kind != PAIR) {
        return NIL_LISP;
    }
    for (; body->rest->kind == PAIR; body = body->rest) {
        evaluate(body->first, scope);
    }
    return body->first;
}

static lisp chosen(lisp clauses, lisp scope) {
    for (; clauses->kind == PAIR; clauses = clauses->rest) {
        lisp test = item(clauses->first, 0);
        if (test == ELSE || is_true(evaluate(test, scope))) {
            return all_but_last(clauses->first->rest, scope);
        }
    }
    return NIL_LISP;
}

static lisp and_or(lisp rest, lisp scope, bool stop) {
    for (; rest->kind == PAIR && rest->rest->kind == PAIR; rest = rest->rest) {
        lisp value = evaluate(rest->first, scope);
        if (is_true(value) == stop) {
            return pair(QUOTE, pair(value, NIL_LISP));
        }
    }
    return rest->kind == PAIR ? rest->first : NIL_LISP;
}

/* A form whose value is that of another expression: that one, and its scope. Null where it isn't one of these. */
static lisp last_place(lisp expression, lisp *scope) {
    lisp head = expression->first, rest = expression->rest;
    if (head == IF) {
        bool is = is_true(evaluate(item(rest, 0), *scope));
        return is ? item(rest, 1) : length_of(rest) > 2 ? item(rest, 2) : NIL_LISP;
    }
    if (head == COND) {
        return chosen(rest, *scope);
    }
    if (head == LET) {
        *scope = let_scope(item(rest, 0), *scope);
        return all_but_last(rest->rest, *scope);
    }
    if (head == BEGIN) {
        return all_but_last(rest, *scope);
    }
    return head == AND || head == OR ? and_or(rest, *scope, head == OR) : NULL;
}

/* A form with a value of its own. Null where it isn't one. */
static lisp form(lisp expression, lisp scope) {
    lisp head = expression->first, rest = expression->rest;
    if (head == QUOTE) {
        return item(rest, 0);
    }
    if (head == DEFINE) {
        return define_form(rest, scope);
    }
    if (head == LAMBDA) {
        item(rest, 0);
        return function(rest->first, rest->rest, scope);
    }
    if (head == SET) {
        lisp value = evaluate(item(rest, 1), scope);
        set_value(item(rest, 0), value, scope);
        return value;
    }
    if (head == TRY) {
        return try_form(rest, scope);
    }
    return head == WHILE ? while_form(rest, scope) : NULL;
}

static lisp values_of(lisp expressions, lisp scope) {
    lisp values = NIL_LISP;
    for (; expressions->kind == PAIR; expressions = expressions->rest) {
        values = pair(evaluate(expressions->first, scope), values);
    }
    return reversed(values);
}

static lisp call_builtin(lisp what, lisp arguments) {
    int given = (int)length_of(arguments);
    if (given < what->least || (what->most >= 0 && given > what->most)) {
        fail("%s was called with %d values", what->called, given);
    }
    return what->call(arguments);
}

static void step(void) {
    if (steps_left == 0) {
        fail("cut off after %lu steps", steps_given);
    }
    steps_left--;
}

lisp evaluate(lisp expression, lisp scope) {
    for (;;) {
        step();
        if (expression->kind == SYMBOL) {
            return value_of(expression, scope);
        }
        if (expression->kind != PAIR) {
            return expression;
        }
        lisp next = last_place(expression, &scope);
        if (next == NULL) {
            lisp value = form(expression, scope);
            if (value != NULL) {
                return value;
            }
            lisp what = evaluate(expression->first, scope);
            lisp arguments = values_of(expression->rest, scope);
            if (what->kind == BUILTIN) {
                return call_builtin(what, arguments);
            }
            if (what->kind != FUNCTION) {
                fail("what is called is no function");
            }
            scope = bind(what->parameters, arguments, what->scope);
            next = all_but_last(what->body, scope);
        }
        expression = next;
    }
}

lisp apply(lisp what, lisp arguments) {
    if (what->kind == BUILTIN) {
        return call_builtin(what, arguments);
    }
    if (what->kind != FUNCTION) {
        fail("what is called is no function");
    }
    lisp scope = bind(what->parameters, arguments, what->scope);
    return evaluate(all_but_last(what->body, scope), scope);
}

void define(const char *name, builtin *call, int least, int most) {
    lisp found = symbol(name, strlen(name));
    found->global = builtin_value(found->name, call, least, most);
}

double number_in(lisp value) {
    if (value->kind != NUMBER) {
        fail("no number");
    }
    return value->number;
}

lisp string_in(lisp value) {
    if (value->kind != STRING) {
        fail("no string");
    }
    return value;
}

lisp list_in(lisp value) {
    if (value->kind != PAIR && value->kind != NIL) {
        fail("no list");
    }
    return value;
}
