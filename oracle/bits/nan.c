/* Reads from outside the bits of what the Rattle functions hand out. To the proofs all NaN are one, so only a run can see
   whether 7ff8000000000000 is the one that leaves. */

#include "mboyaxin.h"
#include "see.h"

word patterns, wrong;

void see(const char *name, word input, word got, word right) {
    patterns++;
    if (got == right) return;
    if (++wrong <= 10) printf("%s of %016lx hands out %016lx, not %016lx\n", name, input, got, right);
}

/* ---- numbers: a NaN pattern goes in */

static void see_pattern(word w) {
    double x = number(w);
    see("one_nan", w, bits(mboyaxin_one_nan(x)), ONE_NAN);
    see("magnitude", w, bits(mboyaxin_magnitude(x)), ONE_NAN);
    see("smaller", w, bits(mboyaxin_smaller(x, 1.0)), ONE_NAN);
    see("smaller than 1", w, bits(mboyaxin_smaller(1.0, x)), bits(1.0));
    see("float_of", w, bits(mboyaxin_float_of(w)), ONE_NAN);
    see("bits_of", w, mboyaxin_bits_of(x), ONE_NAN);
    see("root", w, bits(mboyaxin_root(x)), ONE_NAN);
}

/* NaN of both signs, quiet and signalling, with every single digit set, and with random ones. */
static void see_patterns(void) {
    word state = 1;
    for (int sign = 0; sign < 2; sign++) {
        word top = TOP | (sign ? SIGN : 0);
        for (int digit = 0; digit < 52; digit++) see_pattern(top | 1UL << digit);
        for (int i = 0; i < 100000; i++) {
            state = state * 6364136223846793005UL + 1442695040888963407UL;
            word low = state >> 12;
            see_pattern(top | (low ? low : 1));
        }
    }
    static const word below[] = { 0xbff0000000000000, 0x8010000000000000, 0x8000000000000001, 0xfff0000000000000, 0xffefffffffffffff };
    for (int i = 0; i < 5; i++) see("root", below[i], bits(mboyaxin_root(number(below[i]))), ONE_NAN);
}

/* ---- functions that make a NaN themselves */

const word sources[SOURCES] = {
    0x7ff8000000000000, 0xfff8000000000000, 0x7ff0000000000001, 0xfff40000deadbeef, 0x7ff0000000000000, 0xfff0000000000000,
    0x0000000000000000, 0x8000000000000000, 0x3ff0000000000000, 0xbff0000000000000, 0x7fefffffffffffff, 0xffefffffffffffff,
    0x0000000000000001, 0x8010000000000000,
};

enum { RATIO, DOT, DOT_ANY, NORM, NORM_ANY, LARGEST, WEIGHTED, PRODUCT, INVERSE, FUNCTIONS };
static const char *const names[FUNCTIONS] = { "reduction_ratio", "dot", "dot_any", "norm", "norm_any", "largest", "weighted_dot", "product", "inverse" };
static word found[FUNCTIONS];

static void look(int f, double x) {
    if (!nan_bits(bits(x))) return;
    found[f]++;
    see(names[f], 0, bits(x), ONE_NAN);
}

/* The k-th list of so many sources. */
static void list(double *v, int length, word k) {
    for (int i = 0; i < length; i++, k /= SOURCES) v[i] = number(sources[k % SOURCES]);
}

/* What is lent to be written begins as NaN of many patterns: an output of four numbers, and a scratch. */
static double lent[4 + 24];
static word refused;

static word pattern(word i) { return sources[i % 4] + i; }

static void lend(void) {
    for (word i = 0; i < 28; i++) lent[i] = number(pattern(i));
}

/* A refusal leaves every bit; from 6 on the scratch that was lent is +0. */
static void see_refused(const char *name, word refusal, word room) {
    refused++;
    for (word i = 0; i < 28; i++) {
        word right = refusal > 5 && i >= 4 && i < 4 + room ? 0 : pattern(i);
        if (bits(lent[i]) != right) see(name, refusal, bits(lent[i]), right);
    }
}

static void see_matrix(const double *h, word n) {
    word room = 2 * n * n + 8 * n;
    lend();
    word refusal = mboyaxin_inverse(n, h, n * n, lent, n * n, lent + 4, room);
    if (refusal) see_refused(names[INVERSE], refusal, room);
    else for (word i = 0; i < n * n; i++) look(INVERSE, lent[i]);
}

/* Told n = 2 with lists of one number, each refuses by 1. */
static void see_lengths(const double *v) {
    lend();
    const struct { int f; word refusal; } calls[] = {
        { DOT, mboyaxin_dot(2, v, 1, v, 1, lent) },
        { NORM, mboyaxin_norm(2, v, 1, lent) },
        { WEIGHTED, mboyaxin_weighted_dot(2, v, 1, v, 1, v, 1, lent) },
        { PRODUCT, mboyaxin_product(2, v, 1, v, 1, lent, 1) },
    };
    for (int i = 0; i < 4; i++) {
        if (calls[i].refusal != 1) see(names[calls[i].f], 0, calls[i].refusal, 1);
        see_refused(names[calls[i].f], calls[i].refusal, 0);
    }
}

/* A kernel hands out no NaN at all. At n = 2 from numbers that lead to every leg of both doglegs, and that overflow or vanish there. */
static void see_kernel(const char *name, mboyaxin_kernel *k) {
    static const double some[] = { 1.0, -4.0, 0x1p-30, 0x1p511, 0x1p-1074 }, radii[] = { 2.0, 0x1p-500, 0x1p600 };
    double v[6];
    for (word i = 0; i < 3 * 5 * 5 * 5 * 5 * 5 * 5; i++) {
        word at = i / 3;
        for (int j = 0; j < 6; j++, at /= 5) v[j] = some[at % 5];
        lend();
        word refusal = k(2, radii[i % 3], 1e-9, 5, v, 2, v + 2, 4, lent, 2, lent + 4, 24);
        if (refusal) see_refused(name, refusal, 24);
        else for (int j = 0; j < 2; j++)
            if (nan_bits(bits(lent[j]))) see(name, i, bits(lent[j]), 0);
    }
    for (word i = 0; i < 2 * SOURCES * SOURCES * SOURCES; i++) {
        word n = 1 + i % 2;
        list(v, 3, i / 2);
        lend();
        word refusal = k(n, v[0], 1e-9, 5, v + 1, 1, v + 2, 1, lent, 1, lent + 4, 10);
        if (refusal) see_refused(name, refusal, 10);
        else if (nan_bits(bits(lent[0]))) see(name, 0, bits(lent[0]), 0);
    }
}

static void see_made(void) {
    double v[4], d[2], out[2], x;
    for (word k = 0; k < SOURCES * SOURCES * SOURCES * SOURCES; k++) {
        list(v, 4, k);
        look(RATIO, mboyaxin_reduction_ratio(v[0], v[1], v[2], v[3]));
        if (mboyaxin_dot(2, v, 2, v + 2, 2, &x) == 0) look(DOT, x);
        look(DOT_ANY, mboyaxin_dot_any(v, 2, v + 2, 2));
        look(DOT_ANY, mboyaxin_dot_any(v, 4, v + 2, 2));
        if (mboyaxin_norm(4, v, 4, &x) == 0) look(NORM, x);
        look(NORM_ANY, mboyaxin_norm_any(v, 4));
        look(LARGEST, mboyaxin_largest(v, 4));
        see_matrix(v, 2);
        for (word l = 0; l < SOURCES * SOURCES; l++) {
            list(d, 2, l);
            if (mboyaxin_weighted_dot(2, d, 2, v, 4, d, 2, &x) == 0) look(WEIGHTED, x);
            if (mboyaxin_product(2, v, 4, d, 2, out, 2) == 0)
                for (int i = 0; i < 2; i++) look(PRODUCT, out[i]);
        }
    }
    for (word k = 0; k < SOURCES; k++) {
        list(v, 1, k);
        see_matrix(v, 1);
        see_lengths(v);
    }
    see_kernel("cauchy_point", mboyaxin_cauchy_point);
    see_kernel("dogleg", mboyaxin_dogleg);
    see_kernel("textbook_dogleg", mboyaxin_textbook_dogleg);
    see_kernel("steihaug", mboyaxin_steihaug);
}

int main(void) {
    see_patterns();
    see_made();
    see_sessions();
    for (int f = 0; f < FUNCTIONS; f++) printf("%s: %lu NaN made\n", names[f], found[f]);
    printf("numbers, product, inverse and kernels: %lu refused calls\n", refused);
    if (wrong) {
        printf("%lu of %lu patterns are wrong\n", wrong, patterns);
        return 1;
    }
    printf("%lu patterns read, each NaN is %016lx; a refused call leaves every bit\n", patterns, ONE_NAN);
    return 0;
}
