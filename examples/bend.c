/* A fit from C: the bend a·t / (b + t·t) of a knee, fitted to what the cameras saw at four times. Trial by trial the session proposes a point,
   the laboratory answers with the cost there, and, where it was accepted, with the derivatives.

       ./archive foreign_sessions
       cc -I include examples/bend.c target/staticlib/libforeign_sessions.a -lm -o target/bend && target/bend */

#include "mboyaxin.h"
#include <math.h>
#include <stdio.h>

enum { N = 2, SQUARE = N * N, SCRATCH = 2 * SQUARE + 8 * N, TIMES = 4 };

static const double when[TIMES] = { 0.5, 1.0, 2.0, 4.0 }, seen[TIMES] = { 24.0, 30.0, 24.0, 14.1 };

/* Half the sum of the squares, its gradient, and Gauss and Newton's Hessian. */
static double cost_at(const double x[N], double gradient[N], double hessian[SQUARE]) {
    double cost = 0.0;
    for (int i = 0; i < N; i++) gradient[i] = 0.0;
    for (int i = 0; i < SQUARE; i++) hessian[i] = 0.0;
    for (int k = 0; k < TIMES; k++) {
        double below = x[1] + when[k] * when[k], bend = x[0] * when[k] / below, miss = bend - seen[k];
        double slope[N] = { when[k] / below, -bend / below };
        cost += 0.5 * miss * miss;
        for (int i = 0; i < N; i++) {
            gradient[i] += miss * slope[i];
            for (int j = 0; j < N; j++) hessian[N * i + j] += slope[i] * slope[j];
        }
    }
    return cost;
}

int main(void) {
    double point[N] = { 10.0, 3.0 }, gradient[N], hessian[SQUARE];
    double step[N], trial[N], trial_gradient[N], trial_hessian[SQUARE], scratch[SCRATCH];
    /* five hidden trials in a row are enough: somebody must look at the markers */
    mboyaxin_word words[MBOYAXIN_WORDS] = { [MBOYAXIN_LAYOUT] = MBOYAXIN_WORDS, [MBOYAXIN_KERNEL] = MBOYAXIN_STEIHAUG, [MBOYAXIN_LIMIT] = 10, [MBOYAXIN_ALLOWANCE] = 5, [MBOYAXIN_WHICH_DOGLEG] = MBOYAXIN_PORTED_DOGLEG };
    double numbers[MBOYAXIN_NUMBERS] = { [MBOYAXIN_EPSILON] = 1e-9, [MBOYAXIN_COST] = cost_at(point, gradient, hessian) };
    const double settings[MBOYAXIN_TR_SETTINGS] = { [MBOYAXIN_TR_SET_RADIUS] = 1.0, [MBOYAXIN_TR_SET_MAX_RADIUS] = 100.0, [MBOYAXIN_TR_SET_ETA] = 0.125 };
    mboyaxin_word refusal = mboyaxin_trustregion_start(words, numbers, settings);
    for (int i = 1; i <= 50 && !refusal; i++) {
        refusal = mboyaxin_trustregion_propose(words, numbers, settings, N, point, N, gradient, N, hessian, SQUARE, step, N, trial, N, scratch, SCRATCH);
        /* argmin's TrustRegion goes on for ever: when a fit is over is for the laboratory to say. */
        if (refusal || numbers[MBOYAXIN_NORM] < 1e-6) break;

        /* in the third trial a marker is hidden */
        double cost = i == 3 ? NAN : cost_at(trial, trial_gradient, trial_hessian);
        refusal = mboyaxin_trustregion_answer_cost(words, numbers, settings, N, cost, point, N, trial, N);
        if (refusal) break;
        printf("%3d  %-22.17g %s  radius %g\n", i, cost, words[MBOYAXIN_SAID] == MBOYAXIN_ACCEPTED ? "accepted" : "rejected", numbers[MBOYAXIN_RADIUS]);

        if (words[MBOYAXIN_PHASE] == MBOYAXIN_AWAITING_DERIVATIVES)
            refusal = mboyaxin_trustregion_answer_derivatives(words, numbers, settings, N, trial_gradient, N, trial_hessian, SQUARE, gradient, N, hessian, SQUARE);
    }
    if (refusal) printf("refused %lu\n", refusal);
    printf("a = %.17g, b = %.17g, cost %.17g\n", point[0], point[1], numbers[MBOYAXIN_COST]);
    return refusal != 0;
}
