// Times as a table in Markdown: a row for each work, and a column for each group of runs. Behind every group but
// the first stands the ratio of the first to it.
#pragma once
#include "turns.h"
#include <stdio.h>

// What the first columns are called, the groups' names, and how many digits times have behind the point.
typedef struct {
    const char *first;
    int groups;
    const char *const *names;
    int digits;
} Columns;

static inline void print_head(const Columns *c) {
    printf("| | %s |", c->first);
    for (int g = 1; g < c->groups; g++) printf(" %s | ratio |", c->names[g]);
    printf("\n|---|---|");
    for (const char *at = c->first; *at; at++)
        if (*at == '|') printf("---|");
    for (int g = 1; g < c->groups; g++) printf("---|---|");
    printf("\n");
}

// The rest of a row: every group but the first.
static inline void print_others(const Columns *c, const Times *t) {
    for (int g = 1; g < c->groups; g++) printf(" %.*f | %.2f |", c->digits, group_ns(t, g), t->ratio[g]);
    printf("\n");
    fflush(stdout);
}

// The least and the most of each group's places.
static inline void print_spreads(const Columns *c, const char *row, const Times *t) {
    printf("%s:", row);
    for (int g = 0; g < c->groups; g++) {
        Spread spread = spread_of(t, g);
        printf("%s %s %.*f-%.*f", g ? ";" : "", c->names[g], c->digits, spread.least, c->digits, spread.most);
    }
    printf("\n");
}
