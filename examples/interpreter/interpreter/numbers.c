/* Numbers: arithmetic and the functions of a calculator. */
#include "lisp.h"

#include <math.h>

/* ---- sums and products, of any number of values */

static lisp add(lisp arguments) {
    double sum = 0;
    for (; arguments->kind == PAIR; arguments = arguments->rest) {
        sum += number_in(arguments->first);
    }
    return number(sum);
}

static lisp multiply(lisp arguments) {
    double product = 1;
    for (; arguments->kind == PAIR; arguments = arguments->rest) {
        product *= number_in(arguments->first);
    }
    return number(product);
}

static lisp subtract(lisp arguments) {
    double left = number_in(arguments->first);
    if (arguments->rest->kind == NIL) {
        return number(-left);
    }
    return number(left - add(arguments->rest)->number);
}

static lisp divide(lisp arguments) {
    double left = number_in(arguments->first), right = 1;
    if (arguments->rest->kind == NIL) {
        right = left;
        left = 1;
    } else {
        right = multiply(arguments->rest)->number;
    }
    if (right == 0) {
        fail("division by zero");
    }
    return number(left / right);
}

/* ---- comparisons: each value with the next */

enum order { SAME, LESS, NO_MORE };

static bool stands(enum order order, double one, double other) {
    return order == SAME ? one == other : order == LESS ? one < other : one <= other;
}

static lisp compare(lisp arguments, enum order order, bool turned) {
    for (; arguments->rest->kind == PAIR; arguments = arguments->rest) {
        double one = number_in(arguments->first), other = number_in(arguments->rest->first);
        if (!(turned ? stands(order, other, one) : stands(order, one, other))) {
            return truth(false);
        }
    }
    return truth(true);
}

static lisp is_same(lisp arguments) { return compare(arguments, SAME, false); }
static lisp is_less(lisp arguments) { return compare(arguments, LESS, false); }
static lisp is_more(lisp arguments) { return compare(arguments, LESS, true); }
static lisp is_at_most(lisp arguments) { return compare(arguments, NO_MORE, false); }
static lisp is_at_least(lisp arguments) { return compare(arguments, NO_MORE, true); }

/* ---- functions of one or two numbers */

#define OF_ONE(name, call) \
    static lisp name(lisp arguments) { return number(call(number_in(arguments->first))); }
#define OF_TWO(name, call) \
    static lisp name(lisp arguments) { \
        return number(call(number_in(arguments->first), number_in(arguments->rest->first))); \
    }

OF_ONE(absolute, fabs)
OF_ONE(downwards, floor)
OF_ONE(upwards, ceil)
OF_ONE(nearest, rint)
OF_ONE(whole, trunc)
OF_ONE(square_root, sqrt)
OF_ONE(cube_root, cbrt)
OF_ONE(exponential, exp)
OF_ONE(logarithm, log)
OF_ONE(logarithm_ten, log10)
OF_ONE(logarithm_two, log2)
OF_ONE(sine, sin)
OF_ONE(cosine, cos)
OF_ONE(tangent, tan)
OF_ONE(arc_sine, asin)
OF_ONE(arc_cosine, acos)
OF_ONE(hyperbolic_sine, sinh)
OF_ONE(hyperbolic_cosine, cosh)
OF_ONE(hyperbolic_tangent, tanh)
OF_ONE(gamma_function, tgamma)
OF_ONE(error_function, erf)
OF_TWO(power, pow)
OF_TWO(hypotenuse, hypot)
OF_TWO(remainder_of, fmod)

static lisp arc_tangent(lisp arguments) {
    double y = number_in(arguments->first);
    return number(arguments->rest->kind == PAIR ? atan2(y, number_in(arguments->rest->first)) : atan(y));
}

static lisp quotient(lisp arguments) {
    double by = number_in(arguments->rest->first);
    if (by == 0) {
        fail("division by zero");
    }
    return number(trunc(number_in(arguments->first) / by));
}

static const struct {
    const char *name;
    builtin *call;
    int least, most;
} numbers[] = {
    {"+", add, 0, -1}, {"*", multiply, 0, -1}, {"-", subtract, 1, -1}, {"/", divide, 1, -1},
    {"=", is_same, 1, -1}, {"<", is_less, 1, -1}, {">", is_more, 1, -1}, {"<=", is_at_most, 1, -1},
    {">=", is_at_least, 1, -1}, {"abs", absolute, 1, 1}, {"floor", downwards, 1, 1}, {"ceiling", upwards, 1, 1},
    {"round", nearest, 1, 1}, {"truncate", whole, 1, 1}, {"sqrt", square_root, 1, 1}, {"cbrt", cube_root, 1, 1},
    {"exp", exponential, 1, 1}, {"log", logarithm, 1, 1}, {"log10", logarithm_ten, 1, 1},
    {"log2", logarithm_two, 1, 1}, {"sin", sine, 1, 1}, {"cos", cosine, 1, 1}, {"tan", tangent, 1, 1},
    {"asin", arc_sine, 1, 1}, {"acos", arc_cosine, 1, 1}, {"atan", arc_tangent, 1, 2},
    {"sinh", hyperbolic_sine, 1, 1}, {"cosh", hyperbolic_cosine, 1, 1}, {"tanh", hyperbolic_tangent, 1, 1},
    {"gamma", gamma_function, 1, 1}, {"erf", error_function, 1, 1}, {"expt", power, 2, 2},
    {"hypot", hypotenuse, 2, 2}, {"remainder", remainder_of, 2, 2}, {"quotient", quotient, 2, 2},
};

void define_numbers(void) {
    for (size_t i = 0; i < sizeof numbers / sizeof *numbers; i++) {
        define(numbers[i].name, numbers[i].call, numbers[i].least, numbers[i].most);
    }
    symbol("pi", 2)->global = number(3.14159265358979323846);
}
