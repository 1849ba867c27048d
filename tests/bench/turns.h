// Times of several runs, in interleaved turns. Each PLACES runs, which differ only in where their code lies,
// make a group; the last group may be one run alone.
#pragma once
#include "timing.h"
#include <string.h>

enum { PLACES = 5, TURNS = 41, MOST_GROUPS = 5, MOST_RUNS = MOST_GROUPS * PLACES, MOST_JOBS = 2 };

// A macro for each place, with the ending that placed.sh gives to names there.
#define AT_PLACES(EACH, NAME) EACH(NAME, _0) EACH(NAME, _1) EACH(NAME, _2) EACH(NAME, _3) EACH(NAME, _4)

// One pass of a run over the work.
typedef void Pass(int run, const void *work);

// Some work, of so many units for which a time is given.
typedef struct {
    const void *work;
    int units;
} Job;

// ns of each run, the median of its turns; of group 0's ratio to each group, turn by turn, the median; and the
// same of that ratio to the first job's.
typedef struct {
    int runs;
    double ns[MOST_RUNS], ratio[MOST_GROUPS], to_first[MOST_GROUPS];
} Times;

typedef struct { double least, most; } Spread;

// ns for one pass, over so many.
static inline double timed(Pass *pass, int run, const void *work, int passes) {
    double began = seconds();
    for (int k = 0; k < passes; k++) pass(run, work);
    return (seconds() - began) * 1e9 / passes;
}

static inline int ascending(const void *a, const void *b) {
    double x = *(const double *)a, y = *(const double *)b;
    return (x > y) - (x < y);
}

static inline double median(const double *values, int count) {
    double sorted[TURNS];
    memcpy(sorted, values, sizeof *values * (size_t)count);
    qsort(sorted, (size_t)count, sizeof *sorted, ascending);
    return sorted[count / 2];
}

static inline int groups_of(int runs) { return (runs + PLACES - 1) / PLACES; }

static inline int places_of(int group, int runs) {
    int left = runs - group * PLACES;
    return left < PLACES ? left : PLACES;
}

// The median over the places of a group; the values are those of one turn, or the runs' medians.
static inline double over_places(const double *values, int group, int runs) {
    return median(values + group * PLACES, places_of(group, runs));
}

static inline double group_ns(const Times *t, int group) { return over_places(t->ns, group, t->runs); }

// The least and the most of a group's places.
static inline Spread spread_of(const Times *t, int group) {
    const double *ns = t->ns + group * PLACES;
    Spread spread = {*ns, *ns};
    for (int i = 1; i < places_of(group, t->runs); i++) {
        if (ns[i] < spread.least) spread.least = ns[i];
        if (ns[i] > spread.most) spread.most = ns[i];
    }
    return spread;
}

// Times every run on each of the jobs, in ns for one unit. Every run does all jobs, one behind the other. A turn
// goes through runs and jobs forward, the next one backward, so that no job always comes behind another.
static inline void measured_beside(Pass *pass, int runs, const Job *jobs, int count, Times *times) {
    static double ns[MOST_JOBS][MOST_RUNS][TURNS], ratios[MOST_JOBS][MOST_GROUPS][TURNS], to_first[MOST_GROUPS][TURNS];
    int passes[MOST_JOBS][MOST_RUNS];
    for (int j = 0; j < count; j++)
        for (int run = 0; run < runs; run++) passes[j][run] = 1 + (int)(1e6 / timed(pass, run, jobs[j].work, 3));
    for (int turn = 0; turn < TURNS; turn++) {
        double now[MOST_JOBS][MOST_RUNS];
        for (int i = 0; i < runs; i++) {
            int run = turn % 2 ? runs - 1 - i : i;
            for (int k = 0; k < count; k++) {
                int j = turn % 2 ? count - 1 - k : k;
                now[j][run] = ns[j][run][turn] = timed(pass, run, jobs[j].work, passes[j][run]) / jobs[j].units;
            }
        }
        for (int j = 0; j < count; j++)
            for (int g = 0; g < groups_of(runs); g++)
                ratios[j][g][turn] = over_places(now[j], 0, runs) / over_places(now[j], g, runs);
    }
    for (int j = 0; j < count; j++) {
        Times *t = &times[j];
        t->runs = runs;
        for (int run = 0; run < runs; run++) t->ns[run] = median(ns[j][run], TURNS);
        for (int g = 0; g < groups_of(runs); g++) {
            for (int turn = 0; turn < TURNS; turn++) to_first[g][turn] = ratios[j][g][turn] / ratios[0][g][turn];
            t->ratio[g] = median(ratios[j][g], TURNS);
            t->to_first[g] = median(to_first[g], TURNS);
        }
    }
}

static inline Times measured(Pass *pass, int runs, const void *work, int units) {
    Times t;
    measured_beside(pass, runs, &(Job){work, units}, 1, &t);
    return t;
}
