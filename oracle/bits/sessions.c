/* Reads from outside the bits of what the sessions hand out and keep, and of what a refused call leaves: crates/foreign_sessions,
   over every call of both kinds, and of SR1TrustRegion under both editions of its test. */

#include "mboyaxin.h"
#include "see.h"

enum { SAYINGS = MBOYAXIN_DONE + 1, REFUSALS = 9, ALLOWANCE = 2 };
static const char *const sayings[SAYINGS] = { "started", "proposed", "accepted", "rejected", "taken", "done" };

/* A session with all that its calls are lent, n up to 2. Every member is a word: two stations are compared word by word. */
typedef union { double x; word w; } cell;
struct station {
    word words[MBOYAXIN_WORDS];
    cell numbers[MBOYAXIN_NUMBERS], settings[MBOYAXIN_SR1_SETTINGS], point[2], gradient[2], hessian[4], step[2], trial[2], new_gradient[2], new_hessian[4], scratch[24];
};
static struct station now, was;
#define CELLS (sizeof now / sizeof(word))

struct kind { const char *name; };
static const struct kind trustregion = { "TrustRegion" }, sr1 = { "SR1TrustRegion" };

/* TrustRegion, and SR1TrustRegion under edition 1 and under edition 2: which of them the calls belong to, and what stands in EDITION. TrustRegion
   does not look at that: none that there is stands there. */
#define RUNS 3
static const word editions[RUNS] = { 7, MBOYAXIN_PORTED_UPDATE, MBOYAXIN_TEXTBOOK_UPDATE };
static const char *const runs[RUNS] = { "TrustRegion", "SR1TrustRegion, edition 1", "SR1TrustRegion, edition 2" };
static word run;

/* LEFT counts the answers of SR1TrustRegion that were taken and left each bit of the Hessian. */
static word calls, said[RUNS][SAYINGS], refused[RUNS][REFUSALS + 1], promises[RUNS], ratios[RUNS], left[RUNS];

/* ---- what a call left */

static word *cells(struct station *s) { return (word *)s; }

/* A refusal leaves every bit; by 6, 7 and 8 the scratch that was lent is +0. */
static void see_refused(const struct kind *k, word refusal, word room) {
    refused[run][refusal]++;
    if (refusal > 5 && refusal < 9)
        for (word i = 0; i < room; i++) was.scratch[i].w = 0;
    for (word i = 0; i < CELLS; i++)
        if (cells(&now)[i] != cells(&was)[i]) see(k->name, refusal, cells(&now)[i], cells(&was)[i]);
}

/* The model value or P, and the ratio, may be the one NaN; no other number may be a NaN, and none that is written to a list. */
static void see_taken(const struct kind *k) {
    for (int i = 0; i < MBOYAXIN_NUMBERS; i++)
        if (nan_bits(now.numbers[i].w)) see(k->name, i, now.numbers[i].w, i == MBOYAXIN_PROMISE || i == MBOYAXIN_RATIO ? ONE_NAN : 0);
    for (word i = MBOYAXIN_WORDS + MBOYAXIN_NUMBERS; i < CELLS; i++)
        if (nan_bits(cells(&now)[i]) && cells(&now)[i] != cells(&was)[i]) see(k->name, i, cells(&now)[i], cells(&was)[i]);
    said[run][now.words[MBOYAXIN_SAID]]++;
    promises[run] += nan_bits(now.numbers[MBOYAXIN_PROMISE].w);
    ratios[run] += nan_bits(now.numbers[MBOYAXIN_RATIO].w);
}

static word looked(const struct kind *k, word room, word refusal) {
    calls++;
    if (refusal) see_refused(k, refusal, room);
    else see_taken(k);
    return refusal;
}

/* ---- the calls, on the station */

#define OWN now.words, &now.numbers[0].x, &now.settings[0].x

static word room(word n) { return 2 * n * n + 8 * n; }

static word started(const struct kind *k) {
    was = now;
    return looked(k, 0, k == &sr1 ? mboyaxin_sr1_start(OWN) : mboyaxin_trustregion_start(OWN));
}

static word proposed(const struct kind *k, word n) {
    was = now;
    return looked(k, room(n), (k == &sr1 ? mboyaxin_sr1_propose : mboyaxin_trustregion_propose)(OWN, n, &now.point[0].x, n,
        &now.gradient[0].x, n, &now.hessian[0].x, n * n, &now.step[0].x, n, &now.trial[0].x, n, &now.scratch[0].x, room(n)));
}

static word hessian_is_left(word n) {
    for (word i = 0; i < n * n; i++)
        if (now.hessian[i].w != was.hessian[i].w) return 0;
    return 1;
}

static word answered(const struct kind *k, word n, double cost) {
    was = now;
    word refusal = looked(k, k == &sr1 ? room(n) : 0, k == &sr1
        ? mboyaxin_sr1_answer(OWN, n, cost, &now.new_gradient[0].x, n, &now.point[0].x, n, &now.step[0].x, n,
              &now.trial[0].x, n, &now.gradient[0].x, n, &now.hessian[0].x, n * n, &now.scratch[0].x, room(n))
        : mboyaxin_trustregion_answer_cost(OWN, n, cost, &now.point[0].x, n, &now.trial[0].x, n));
    left[run] += k == &sr1 && refusal == 0 && hessian_is_left(n);
    return refusal;
}

static word renewed(word n) {
    was = now;
    return looked(&trustregion, 0, mboyaxin_trustregion_answer_derivatives(OWN, n, &now.new_gradient[0].x, n,
        &now.new_hessian[0].x, n * n, &now.gradient[0].x, n, &now.hessian[0].x, n * n));
}

/* ---- stations */

/* Every kernel, the dogleg in both ways; beside the others either may stand. */
#define KERNELS 4
static const struct { word kernel, dogleg; } choices[KERNELS] = {
    { MBOYAXIN_CAUCHY_POINT, MBOYAXIN_TEXTBOOK_DOGLEG },
    { MBOYAXIN_DOGLEG, MBOYAXIN_PORTED_DOGLEG },
    { MBOYAXIN_STEIHAUG, MBOYAXIN_PORTED_DOGLEG },
    { MBOYAXIN_DOGLEG, MBOYAXIN_TEXTBOOK_DOGLEG },
};

/* Good settings, and NaN in every list: what a call does not write must keep these bits. */
static void station_by(const struct kind *k, word kernel, word dogleg, word phase) {
    static const double settings[2][MBOYAXIN_SR1_SETTINGS] = { { 1.0, 100.0, 0.125, 0.0 }, { 1.0, 0.5e-3, 1e-8, 0.0 } };
    now = (struct station){
        .words = { [MBOYAXIN_LAYOUT] = MBOYAXIN_WORDS, [MBOYAXIN_KERNEL] = kernel, [MBOYAXIN_LIMIT] = 5, [MBOYAXIN_ALLOWANCE] = ALLOWANCE,
            [MBOYAXIN_WHICH_DOGLEG] = dogleg, [MBOYAXIN_EDITION] = editions[run], [MBOYAXIN_PHASE] = phase },
        .numbers[MBOYAXIN_EPSILON].x = 1e-9,
    };
    for (int i = 0; i < MBOYAXIN_SR1_SETTINGS; i++) now.settings[i].x = settings[k == &sr1][i];
    for (word i = MBOYAXIN_WORDS + MBOYAXIN_NUMBERS + MBOYAXIN_SR1_SETTINGS; i < CELLS; i++) cells(&now)[i] = sources[i % 4] + i;
}

static void station(const struct kind *k, word choice, word phase) { station_by(k, choices[choice].kernel, choices[choice].dogleg, phase); }

/* The k-th list of so many numbers out of some. */
static void fill(cell *v, int length, word k, const double *from, word count) {
    for (int i = 0; i < length; i++, k /= count) v[i].x = from[k % count];
}

static word power(word base, int times) { return times ? base * power(base, times - 1) : 1; }

/* ---- proposals that make a NaN, and every answer to them */

static const double top = 0x1.fffffffffffffp1023, least = 0x1p-1074;

static void see_answers(const struct kind *k, word n) {
    static const double gradients[] = { 0.0, 1.0, -0x1.fffffffffffffp1023 };
    struct station proposal = now;
    for (int i = 0; i < SOURCES; i++)
        for (int j = 0; j < (k == &sr1 ? 3 : 1); j++) {
            now = proposal;
            for (word m = 0; m < n; m++) now.new_gradient[m].x = gradients[j];
            answered(k, n, number(sources[i]));
        }
}

static void see_proposals(const struct kind *k, word n, const double *from, word count, const double *radii, const double *costs, word few) {
    for (word choice = 0; choice < KERNELS; choice++)
        for (word g = 0; g < power(count, n); g++)
            for (word h = 0; h < power(count, n * n); h++)
                for (word i = 0; i < few * few; i++) {
                    station(k, choice, MBOYAXIN_READY);
                    fill(now.gradient, n, g, from, count);
                    fill(now.hessian, n * n, h, from, count);
                    for (word m = 0; m < n; m++) now.point[m].x = g % 2 ? 1.0 : 0.0;
                    if (k == &sr1 && h % 2) now.settings[MBOYAXIN_SR1_SET_TOL_GRAD].x = 1e-3; /* a session that is done */
                    now.numbers[MBOYAXIN_RADIUS].x = radii[i / few];
                    now.numbers[MBOYAXIN_COST].x = costs[i % few];
                    if (proposed(k, n) == 0 && now.words[MBOYAXIN_SAID] == MBOYAXIN_PROPOSED) see_answers(k, n);
                }
}

static void see_all_proposals(const struct kind *k) {
    const double many[12] = { 0.0, -0.0, 1.0, -1.0, top, -top, least, -0x1p-1022, 1e154, -1e154, 1e200, -1e-200 };
    const double some[6] = { 0.0, 1.0, -1.0, -1e154, 1e200, top }, radii[3] = { 1.0, 1e154, top }, costs[3] = { 0.0, -top, top };
    see_proposals(k, 1, many, 12, many, many, 12);
    see_proposals(k, 2, some, 6, radii, costs, 3);
}

/* ---- what comes from outside */

/* A phase that a caller made up, any cost before it and any answer. */
static void see_phases(const struct kind *k) {
    for (word i = 0; i < power(SOURCES, 5); i++) {
        word at = i;
        station(k, 0, MBOYAXIN_AWAITING_COST);
        for (int j = 0; j < 4; j++, at /= SOURCES) now.numbers[MBOYAXIN_RADIUS + j].w = sources[at % SOURCES];
        now.step[0].x = now.trial[0].x = now.gradient[0].x = now.hessian[0].x = 1.0;
        now.new_gradient[0].x = 3.0;
        answered(k, 1, number(sources[at]));
    }
}

/* Settings and cost of a start. */
static void see_starts(const struct kind *k) {
    for (word i = 0; i < power(SOURCES, 5); i++) {
        word at = i;
        station(k, 0, MBOYAXIN_READY);
        for (int j = 0; j < 4; j++, at /= SOURCES) {
            cell *c = k == &sr1 || j < MBOYAXIN_TR_SETTINGS ? &now.settings[j] : &now.numbers[MBOYAXIN_EPSILON];
            c->w = sources[at % SOURCES];
            if (k == &sr1 ? j == 1 || j == 2 : j == 2) c->x /= 128.0;
        }
        now.numbers[MBOYAXIN_COST].w = sources[at];
        started(k);
    }
}

/* SR1's answer over every step, gradient, Hessian, new gradient and trial; and the Hessian's update at n = 2, with a factor under which the
   book's test skips more often. */
static void see_updates(void) {
    const double some[4] = { 1.0, -1e154, top, 1e-200 }, costs[3] = { 1.0, -1.0, number(0xfff8000000000001) };
    for (word i = 0; i < 3 * power(SOURCES, 5); i++) {
        word at = i / 3;
        cell *lists[4] = { now.step, now.gradient, now.hessian, now.new_gradient };
        station(&sr1, 0, MBOYAXIN_AWAITING_COST);
        for (int j = 0; j < 4; j++, at /= SOURCES) lists[j][0].w = sources[at % SOURCES];
        now.trial[0].w = sources[at];
        now.numbers[MBOYAXIN_RADIUS].x = now.numbers[MBOYAXIN_PROMISE].x = now.numbers[MBOYAXIN_NORM].x = 1.0;
        answered(&sr1, 1, costs[i % 3]);
    }
    for (word i = 0; i < power(4, 10); i++) {
        station(&sr1, 0, MBOYAXIN_AWAITING_COST);
        fill(now.step, 2, i, some, 4);
        fill(now.gradient, 2, i >> 4, some, 4);
        fill(now.hessian, 4, i >> 8, some, 4);
        fill(now.new_gradient, 2, i >> 16, some, 4);
        now.trial[0].x = now.trial[1].x = 1.0;
        if (i % 2) now.settings[MBOYAXIN_SR1_SET_FACTOR].x = 0.5;
        now.numbers[MBOYAXIN_RADIUS].x = now.numbers[MBOYAXIN_PROMISE].x = now.numbers[MBOYAXIN_NORM].x = 1.0;
        answered(&sr1, 2, -1.0);
    }
}

/* TrustRegion's derivatives. */
static void see_renewals(void) {
    for (word i = 0; i < power(SOURCES, 2); i++) {
        station(&trustregion, 0, MBOYAXIN_AWAITING_DERIVATIVES);
        now.numbers[MBOYAXIN_RADIUS].x = 1.0;
        now.new_gradient[0].w = sources[i % SOURCES];
        now.new_hessian[0].w = sources[i / SOURCES];
        renewed(1);
    }
}

/* Calls out of turn, phases, kernels and doglegs that are none, wrong n; NaN in every list. A dogleg that is none is refused by 2 whatever the
   kernel and the phase, by a start too. */
static void see_out_of_turn(const struct kind *k) {
    static const word phases[] = { 0, 1, 2, 3, 1UL << 63 }, sizes[] = { 0, 1, 2 }, doglegs[] = { 0, 1, 2, 3, 4, 1UL << 32 | 1, 1UL << 32 | 2, ~0UL };
    for (word kernel = 0; kernel < 5; kernel++)
        for (word dogleg = 0; dogleg < sizeof doglegs / sizeof(word); dogleg++)
            for (int phase = 0; phase < 5; phase++)
                for (int size = 0; size < 3; size++)
                    for (int call = 0; call < 4; call++) {
                        word refusal = 0, known = kernel >= 1 && kernel <= 3 && (doglegs[dogleg] == 1 || doglegs[dogleg] == 2);
                        station_by(k, kernel, doglegs[dogleg], phases[phase]);
                        now.numbers[MBOYAXIN_RADIUS].x = now.numbers[MBOYAXIN_COST].x = 1.0;
                        now.numbers[MBOYAXIN_PROMISE].w = 0xfff8000000000001;
                        now.numbers[MBOYAXIN_NORM].w = 0x7ff0000000000002;
                        if (call == 0) refusal = proposed(k, sizes[size]);
                        else if (call == 1) refusal = answered(k, sizes[size], number(0xfff8000000000003));
                        else if (call == 2 && k == &trustregion) refusal = renewed(sizes[size]);
                        else if (call == 3) refusal = started(k);
                        else continue;
                        /* An n of 0 may be told first; what else refuses a call with known ones is looked at elsewhere. */
                        word right = known ? (call == 3 ? 0 : refusal) : call != 3 && sizes[size] == 0 && refusal == 1 ? 1 : 2;
                        if (refusal != right) see(k->name, doglegs[dogleg], refusal, right);
                    }
}

/* Editions that are none, and one that is in its low half: refused by 2 at every call, whatever the kernel and the phase, with nothing written. */
static void see_editions(void) {
    static const word none[] = { 0, 3, 4, 1UL << 32, 1UL << 32 | 1, 1UL << 32 | 2, 1UL << 63 | 1, ~0UL };
    for (word choice = 0; choice < KERNELS; choice++)
        for (word edition = 0; edition < sizeof none / sizeof(word); edition++)
            for (word phase = 0; phase < 3; phase++)
                for (word n = 1; n < 3; n++)
                    for (int call = 0; call < 3; call++) {
                        station(&sr1, choice, phase);
                        now.words[MBOYAXIN_EDITION] = none[edition];
                        now.numbers[MBOYAXIN_RADIUS].x = now.numbers[MBOYAXIN_COST].x = now.numbers[MBOYAXIN_PROMISE].x = now.numbers[MBOYAXIN_NORM].x = 1.0;
                        word refusal = call == 0 ? proposed(&sr1, n) : call == 1 ? answered(&sr1, n, 1.0) : started(&sr1);
                        if (refusal != 2) see(sr1.name, none[edition], refusal, 2);
                    }
}

/* Every call with the count below, at and above the allowance, and with words of another layout; NaN in every list. A proposal at the
   allowance is refused by 9 and leaves the scratch its bits, also where the kernel would have refused. Words of another layout, older ones of five,
   eight and nine words among them, are refused by 2. */
static void see_hidden(const struct kind *k) {
    static const word layouts[] = { MBOYAXIN_WORDS, 0, 1, 2, 3, 5, 8, 9, 1UL << 32 | MBOYAXIN_WORDS }, counts[] = { 0, 1, ALLOWANCE, ALLOWANCE + 1, ~0UL };
    for (word choice = 0; choice < KERNELS; choice++)
        for (word layout = 0; layout < sizeof layouts / sizeof(word); layout++)
            for (word count = 0; count < sizeof counts / sizeof(word); count++)
                for (word phase = 0; phase < 3; phase++)
                    for (int call = 0; call < 3; call++)
                        for (int i = 0; i < SOURCES; i++) {
                            station(k, choice, phase);
                            now.words[MBOYAXIN_LAYOUT] = layouts[layout];
                            now.words[MBOYAXIN_COUNT] = counts[count];
                            now.numbers[MBOYAXIN_RADIUS].x = now.numbers[MBOYAXIN_COST].x = 1.0;
                            now.numbers[MBOYAXIN_PROMISE].x = now.numbers[MBOYAXIN_NORM].x = phase == MBOYAXIN_AWAITING_COST;
                            now.point[0].x = now.gradient[0].x = now.step[0].x = now.trial[0].x = now.new_gradient[0].x = now.new_hessian[0].x = 1.0;
                            now.hessian[0].w = sources[i];
                            word refusal = 2;
                            if (call == 0) refusal = proposed(k, 1);
                            else if (call == 1) refusal = answered(k, 1, number(sources[i]));
                            else if (k == &trustregion) refusal = renewed(1);
                            if (layout && refusal != 2) see(k->name, layouts[layout], refusal, 2);
                        }
}

void see_sessions(void) {
    for (run = 0; run < RUNS; run++) {
        const struct kind *k = run ? &sr1 : &trustregion;
        see_all_proposals(k);
        see_phases(k);
        see_starts(k);
        see_out_of_turn(k);
        see_hidden(k);
        if (k == &sr1) {
            see_updates();
            see_editions();
        } else see_renewals();
    }
    printf("sessions: %lu calls\n", calls);
    for (int i = 0; i < RUNS; i++) {
        printf("%s: %lu NaN %s, %lu NaN ratios; ", runs[i], promises[i], i ? "predicted falls" : "model values", ratios[i]);
        if (i) printf("%lu answers left the Hessian; ", left[i]);
        for (int j = 0; j < SAYINGS; j++) printf("%s %lu, ", sayings[j], said[i][j]);
        for (int j = 1; j <= REFUSALS; j++) printf(j < REFUSALS ? "refused %d %lu, " : "refused %d %lu\n", j, refused[i][j]);
    }
}
