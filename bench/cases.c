// Writes a case: cases SEED ROWS ROLES PERMISSIONS HELD POLICY AWAY CREWS SIZE EDITION TIMES. Each role holds each permission with HELD chances in 100,
// and each row has one of the roles; ROLES 0 gives each row a role of its own. The generator is fixed, so a case is the same on every machine; HELD 100
// gives equal rows. With SEED `hunt` it prints instead, for the seeds from 1 on, the verdict and the units, to pick hard ones by.
#include "search.h"
#include <stdio.h>
#include <stdlib.h>
#include <string.h>

static uint64_t state;

// xorshift64*, the upper half
static uint32_t draw(void) {
    state ^= state >> 12, state ^= state << 25, state ^= state >> 27;
    return (uint32_t)(state * 2685821657736338717u >> 32);
}

static uint32_t role(uint32_t permissions, uint32_t held) {
    uint32_t holdings = 0;
    for (uint32_t p = 0; p < permissions; p++)
        if (draw() % 100 < held) holdings |= 1u << p;
    return holdings;
}

static Case drawn(uint64_t seed, char **given) {
    uint32_t number[10], roles[ROWS];
    for (int i = 0; i < 10; i++) number[i] = (uint32_t)strtoul(given[i], 0, 10);
    Case c = {.rows = number[0], .policy = number[4], .away = number[5], .crews = number[6], .size = number[7], .edition = number[8], .times = number[9]};
    c.task = number[2] == 32 ? ~0u : (1u << number[2]) - 1;
    c.allowance = ~0u;
    state = seed * 0x9e3779b97f4a7c15u;
    for (uint32_t i = 0; i < number[1]; i++) roles[i] = role(number[2], number[3]);
    for (uint32_t row = 0; row < c.rows; row++) c.holdings[row] = number[1] ? roles[draw() % number[1]] : role(number[2], number[3]);
    return c;
}

int main(int n, char **word) {
    if (n != 12) return fprintf(stderr, "cases SEED ROWS ROLES PERMISSIONS HELD POLICY AWAY CREWS SIZE EDITION TIMES\n"), 2;
    if (strcmp(word[1], "hunt")) {
        Case c = drawn(strtoul(word[1], 0, 10), word + 2);
        return fwrite(&c, sizeof c, 1, stdout) != 1;
    }
    for (uint64_t seed = 1; seed <= 400; seed++) {
        Case c = drawn(seed, word + 2);
        Reply r = ask(&c, 20000000);
        printf("%3d: %d %u\n", (int)seed, r.verdict, r.units);
    }
}
