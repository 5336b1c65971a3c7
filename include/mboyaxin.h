/* The solvers for C: crates/foreign and crates/foreign_sessions, built by `./archive` for x86-64 Linux.

   A list is a pointer and behind it its length. Vectors have n entries, n from 1 to 64; matrices n·n, by rows; the scratch 2·n·n + 8·n, each
   exactly. No two lists of a call may overlap if one of them is written.

   A function that may refuse returns 0, or the number of the refusal (README.md has their table), and writes what it gives where it is told.
   A refused call has changed nothing, but that a refusal by 6, 7 or 8 has cleared the scratch. Every NaN that is handed out has the bits
   7ff8000000000000: no proof can say so, oracle/nan-bits reads them. */

#ifndef MBOYAXIN_H
#define MBOYAXIN_H

#ifdef __cplusplus
extern "C" {
#endif

typedef unsigned long mboyaxin_word; /* 64 bits */

/* ---- crates/foreign: scalars; nothing is refused */

/* the f64 nearest to the root of x; zero keeps its sign, a number below zero gives the NaN */
double mboyaxin_root(double x);
double mboyaxin_magnitude(double x);
/* y where y < x, otherwise x */
double mboyaxin_smaller(double x, double y);
/* x, and the one NaN for any */
double mboyaxin_one_nan(double x);
double mboyaxin_float_of(mboyaxin_word bits);
mboyaxin_word mboyaxin_bits_of(double x);

/* ---- crates/foreign: vectors, the inverse, the reduction ratio */

mboyaxin_word mboyaxin_dot(mboyaxin_word n, const double *a, mboyaxin_word a_length, const double *b, mboyaxin_word b_length, double *out);
mboyaxin_word mboyaxin_norm(mboyaxin_word n, const double *a, mboyaxin_word a_length, double *out);
mboyaxin_word mboyaxin_weighted_dot(mboyaxin_word n, const double *a, mboyaxin_word a_length, const double *h, mboyaxin_word h_length,
    const double *b, mboyaxin_word b_length, double *out);
mboyaxin_word mboyaxin_product(mboyaxin_word n, const double *h, mboyaxin_word h_length, const double *d, mboyaxin_word d_length, double *out,
    mboyaxin_word out_length);
mboyaxin_word mboyaxin_inverse(mboyaxin_word n, const double *h, mboyaxin_word h_length, double *out, mboyaxin_word out_length, double *scratch,
    mboyaxin_word scratch_length);

/* nothing is refused */
double mboyaxin_reduction_ratio(double cost, double trial_cost, double model_start, double model_trial);
/* of any lengths */
double mboyaxin_dot_any(const double *a, mboyaxin_word a_length, const double *b, mboyaxin_word b_length);
double mboyaxin_norm_any(const double *a, mboyaxin_word a_length);
/* the largest magnitude: a NaN if one is there, +0 of none */
double mboyaxin_largest(const double *v, mboyaxin_word v_length);

/* ---- crates/foreign: the kernels, all of one shape; Cauchy and both doglegs pass over epsilon and limit */

typedef mboyaxin_word mboyaxin_kernel(mboyaxin_word n, double radius, double epsilon, mboyaxin_word limit, const double *gradient,
    mboyaxin_word gradient_length, const double *hessian, mboyaxin_word hessian_length, double *step, mboyaxin_word step_length, double *scratch,
    mboyaxin_word scratch_length);
mboyaxin_kernel mboyaxin_cauchy_point, mboyaxin_dogleg, mboyaxin_textbook_dogleg, mboyaxin_steihaug;

/* ---- crates/foreign_sessions

   A session is three lists that its owner keeps: words and numbers, the same for both kinds, which each call changes in place, and its kind's
   own settings, which are only read. Before a start layout, kernel, limit, allowance, which dogleg, edition, epsilon, cost and settings stand in
   their places; nothing else is looked at. What a call does not tell is 0.

   The words have grown. LAYOUT holds MBOYAXIN_WORDS, so that lists of another header are told apart: the first ones had five words, the kernel
   first, the next eight, then nine. They are refused by 2 at every call, with nothing written. A header with further words will have another
   MBOYAXIN_WORDS.

   ALLOWANCE, 1 to 1000, is how many trials in a row may be answered with NaN, COUNT how many were: when they are equal a proposal is refused
   by 9. Once the markers are seen again, put 0 into COUNT.

   WHICH_DOGLEG is 1 for the ported one or 2 for the one with the textbook's first leg; anything else is refused by 2, whatever the kernel. A new
   fit should take 2: where the border cuts the first leg the ported one may stand still or step too far. An old fit that must be repeated keeps
   1.

   EDITION is SR1TrustRegion's alone, and TrustRegion does not look at it: by which rule the Hessian is updated, 1 for the ported one or 2 for the
   textbook's; anything else is refused by 2. A new fit should take 2: 1 is argmin's test, which hardly ever skips, and where the denominator is 0,
   as with a step of zeros or a Hessian that already fits the new gradient exactly, it divides by zero: the answer is refused by 8, whatever its
   cost. An old fit that must be repeated keeps 1. */

enum {
    MBOYAXIN_LAYOUT,
    MBOYAXIN_KERNEL,
    MBOYAXIN_LIMIT,
    MBOYAXIN_ALLOWANCE,
    MBOYAXIN_WHICH_DOGLEG,
    MBOYAXIN_EDITION,
    MBOYAXIN_PHASE,
    MBOYAXIN_COUNT,
    MBOYAXIN_SAID,
    MBOYAXIN_PASSES,
    MBOYAXIN_WORDS
};

/* PROMISE and NORM are what a cost is awaited on: TrustRegion's model value or SR1TrustRegion's predicted fall, and the step norm. RATIO is
   that of a verdict. */
enum { MBOYAXIN_EPSILON, MBOYAXIN_RADIUS, MBOYAXIN_COST, MBOYAXIN_PROMISE, MBOYAXIN_NORM, MBOYAXIN_RATIO, MBOYAXIN_NUMBERS };

/* the kernel */
enum { MBOYAXIN_CAUCHY_POINT = 1, MBOYAXIN_DOGLEG, MBOYAXIN_STEIHAUG };

/* which dogleg */
enum { MBOYAXIN_PORTED_DOGLEG = 1, MBOYAXIN_TEXTBOOK_DOGLEG };

/* the edition of SR1TrustRegion's rule */
enum { MBOYAXIN_PORTED_UPDATE = 1, MBOYAXIN_TEXTBOOK_UPDATE };

/* the phase */
enum { MBOYAXIN_READY, MBOYAXIN_AWAITING_COST, MBOYAXIN_AWAITING_DERIVATIVES };

/* what the last call that was not refused said */
enum { MBOYAXIN_STARTED, MBOYAXIN_PROPOSED, MBOYAXIN_ACCEPTED, MBOYAXIN_REJECTED, MBOYAXIN_TAKEN, MBOYAXIN_DONE };

/* TrustRegion */
enum { MBOYAXIN_TR_SET_RADIUS, MBOYAXIN_TR_SET_MAX_RADIUS, MBOYAXIN_TR_SET_ETA, MBOYAXIN_TR_SETTINGS };
mboyaxin_word mboyaxin_trustregion_start(mboyaxin_word words[MBOYAXIN_WORDS], double numbers[MBOYAXIN_NUMBERS],
    const double settings[MBOYAXIN_TR_SETTINGS]);
mboyaxin_word mboyaxin_trustregion_propose(mboyaxin_word words[MBOYAXIN_WORDS], double numbers[MBOYAXIN_NUMBERS],
    const double settings[MBOYAXIN_TR_SETTINGS], mboyaxin_word n, const double *point, mboyaxin_word point_length, const double *gradient,
    mboyaxin_word gradient_length, const double *hessian, mboyaxin_word hessian_length, double *step, mboyaxin_word step_length, double *trial,
    mboyaxin_word trial_length, double *scratch, mboyaxin_word scratch_length);
/* the cost at the trial point; NaN where its markers were hidden */
mboyaxin_word mboyaxin_trustregion_answer_cost(mboyaxin_word words[MBOYAXIN_WORDS], double numbers[MBOYAXIN_NUMBERS],
    const double settings[MBOYAXIN_TR_SETTINGS], mboyaxin_word n, double cost, double *point, mboyaxin_word point_length, const double *trial,
    mboyaxin_word trial_length);
/* after an accepted trial */
mboyaxin_word mboyaxin_trustregion_answer_derivatives(mboyaxin_word words[MBOYAXIN_WORDS], double numbers[MBOYAXIN_NUMBERS],
    const double settings[MBOYAXIN_TR_SETTINGS], mboyaxin_word n, const double *new_gradient, mboyaxin_word new_gradient_length,
    const double *new_hessian, mboyaxin_word new_hessian_length, double *gradient, mboyaxin_word gradient_length, double *hessian,
    mboyaxin_word hessian_length);

/* SR1TrustRegion: it updates its Hessian itself */
enum { MBOYAXIN_SR1_SET_RADIUS, MBOYAXIN_SR1_SET_ETA, MBOYAXIN_SR1_SET_FACTOR, MBOYAXIN_SR1_SET_TOL_GRAD, MBOYAXIN_SR1_SETTINGS };
mboyaxin_word mboyaxin_sr1_start(mboyaxin_word words[MBOYAXIN_WORDS], double numbers[MBOYAXIN_NUMBERS],
    const double settings[MBOYAXIN_SR1_SETTINGS]);
mboyaxin_word mboyaxin_sr1_propose(mboyaxin_word words[MBOYAXIN_WORDS], double numbers[MBOYAXIN_NUMBERS],
    const double settings[MBOYAXIN_SR1_SETTINGS], mboyaxin_word n, const double *point, mboyaxin_word point_length, const double *gradient,
    mboyaxin_word gradient_length, const double *hessian, mboyaxin_word hessian_length, double *step, mboyaxin_word step_length, double *trial,
    mboyaxin_word trial_length, double *scratch, mboyaxin_word scratch_length);
/* the cost and the gradient at the trial point */
mboyaxin_word mboyaxin_sr1_answer(mboyaxin_word words[MBOYAXIN_WORDS], double numbers[MBOYAXIN_NUMBERS],
    const double settings[MBOYAXIN_SR1_SETTINGS], mboyaxin_word n, double cost, const double *new_gradient, mboyaxin_word new_gradient_length,
    double *point, mboyaxin_word point_length, const double *step, mboyaxin_word step_length, const double *trial, mboyaxin_word trial_length,
    double *gradient, mboyaxin_word gradient_length, double *hessian, mboyaxin_word hessian_length, double *scratch,
    mboyaxin_word scratch_length);

#ifdef __cplusplus
}
#endif

#endif
