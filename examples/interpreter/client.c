/* Sends scripts to the interpreter and prints the answers. With each goes an entry for the answer, and the number of
   steps that the script may take. */
#include <stdio.h>
#include <string.h>

#include "libc.h"
#include "plan.h"

enum { ANSWER_ENTRY = 8, ANSWER_PAYLOAD = 1 };
enum { ROOM = 2000 };

struct script {
    coy_word steps;
    const char *text;
};

static const struct script scripts[] = {
    {2000, "(define (square x) (* x x)) (square 12)"},
    {2000, "(define (factorial n) (if (< n 2) 1 (* n (factorial (- n 1))))) (factorial 20)"},
    {5000, "(define (fib n) (cond ((< n 2) n) (else (+ (fib (- n 1)) (fib (- n 2)))))) (map fib (range 0 8))"},
    {2000, "(list (sqrt 2) (sin (/ pi 6)) (exp 1) (expt 2 0.5) (gamma 5) (/ 1 3))"},
    {2000, "(string-append \"good \" (string-upcase \"morning\") (to-string (list 1 \"two\")))"},
    {2000, "(sort (lambda (one other) (> one other)) '(3 1 4 1 5 9 2 6))"},
    {2000, "(fold (lambda (text name) (string-append text \", \" name)) \"hello\" '(\"Ada\" \"Grace\"))"},
    {2000, "(car 5)"},
    {2000, "(square \"twelve\")"},
    {2000, "(error \"an error of my own\")"},
    {2000, "(try (/ 1 0) (lambda (why) (string-append \"caught: \" why)))"},
    {2000, "(undefined 1)"},
    {2000, "(square (square 2)"},
    {2000, "(define (loop) (loop)) (loop)"},
    {100000, "(define (eat list) (eat (cons list list))) (eat 1)"},
    {2000, "(square 13)"},
    {100000, "(define (deep n) (+ 1 (deep n))) (deep 0)"},
    {2000, "(square 14)"},
    {2000, "(define (square x) (* x x)) (square 15)"},
    {2000, "(peek 0)"},
    {2000, "(poke 0 0)"},
    {2000, "(peek 196608)"},
    {2000, "(jump 131072)"},
    {2000, "(map (lambda (register) (invoke register 0)) (append (range 0 7) (range 9 31)))"},
    {2000, "(invoke 8 0) \"an answer that nobody waits for\""},
    {2000, "(string-append \"still \" \"here\")"},
};

static char answer[ROOM];

/* Sends a script with its number, and waits at the endpoint of answers alone. */
static struct coy_answer ask(coy_word number, const struct script *script) {
    return coy_invoke((struct coy_call){.target = ENTRY_SCRIPTS,
                                        .phases = COY_SEND | COY_RECEIVE | COY_CLOSED,
                                        .words = {number, script->steps},
                                        .string = script->text,
                                        .length = strlen(script->text),
                                        .sent = 1,
                                        .sent_caps = ANSWER_ENTRY,
                                        .buffer = answer,
                                        .bound = ROOM,
                                        .from = ID_ANSWERS});
}

int main(void) {
    const coy_word count = sizeof scripts / sizeof *scripts;
    coy_endpoint_makeentry(ENDPOINT_ANSWERS, ANSWER_PAYLOAD, ANSWER_ENTRY);
    for (coy_word number = 1; number <= count; number++) {
        struct coy_answer came = ask(number, &scripts[number - 1]);
        if (came.payload == PAYLOAD_ANSWERS_KEEPER) {
            printf("%u: the interpreter fell\n", number);
        } else if (came.words[0] != number) {
            printf("%u: a message that is no answer\n", number);
        } else {
            printf("%u: %.*s\n", number, (int)came.length, answer);
        }
    }
    return 0;
}
