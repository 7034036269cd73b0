/* A small Lisp. Numbers are floating-point, functions are values, and what is defined stays from script to script. */
#ifndef LISP_H
#define LISP_H

#include <setjmp.h>
#include <stdbool.h>
#include <stddef.h>

enum kind { NIL, NUMBER, STRING, SYMBOL, PAIR, BUILTIN, FUNCTION };

typedef struct value *lisp;
typedef lisp builtin(lisp arguments);

struct value {
    enum kind kind;
    bool marked;
    lisp older; /* all values, from the newest to the oldest */
    union {
        double number;
        struct { char *text; size_t length; };                /* a string */
        struct { const char *name; lisp global; lisp next; }; /* a symbol, and what it is defined as */
        struct { lisp first, rest; };
        struct { const char *called; builtin *call; int least, most; };
        struct { lisp parameters, body, scope; };             /* a function, and the names around it */
    };
};

/* ---- values (values.c) */

extern struct value nil_value;
#define NIL_LISP (&nil_value)

lisp number(double number);
lisp string(const char *text, size_t length);
lisp symbol(const char *name, size_t length);
lisp pair(lisp first, lisp rest);
lisp builtin_value(const char *name, builtin *call, int least, int most);
lisp function(lisp parameters, lisp body, lisp scope);
lisp truth(bool is);
bool is_true(lisp value);
bool is_equal(lisp one, lisp other);
size_t length_of(lisp list);
lisp reversed(lisp list);
void collect(void); /* gives back all that no definition leads to; not while something is evaluated */

/* ---- errors (values.c): a script that goes wrong ends there, with a text that says why */

extern jmp_buf *handler;
extern char message[160];
_Noreturn void fail(const char *format, ...) __attribute__((format(printf, 1, 2)));

/* ---- texts (texts.c) */

lisp read_next(const char **at); /* the next expression, or a null pointer where there is none */
size_t write_value(lisp value, char *text, size_t room, bool quoted);

/* ---- evaluation (evaluate.c) */

extern unsigned long steps_left, steps_given;
void define_forms(void);
lisp evaluate(lisp expression, lisp scope);
lisp apply(lisp what, lisp arguments);

/* ---- what is there from the start */

void define_numbers(void);  /* numbers.c */
void define_lists(void);    /* lists.c */
void define_strings(void);  /* strings.c */
void define_machine(void);  /* machine.c */

double number_in(lisp value);
lisp string_in(lisp value);
lisp list_in(lisp value);
void define(const char *name, builtin *call, int least, int most);

#endif
