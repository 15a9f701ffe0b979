// Asks the question of the case on standard input as often as the case says, and prints the last reply and the sum of the units: the same
// lines as asked, which does the same with the proved questions. Every other time the allowance is one less, so that no compiler asks once and
// takes the reply for all.
#include "search.h"
#include <inttypes.h>
#include <stdio.h>

int main(void) {
    static Case c;
    if (fread(&c, sizeof c, 1, stdin) != 1) return 1;
    Reply r = {0};
    uint64_t sum = 0;
    for (uint32_t i = 0; i < c.times; i++) {
        r = ask(&c, c.allowance - (i & 1));
        sum += r.units;
    }
    printf("%d %" PRIu32 " %" PRIu64, r.verdict, r.units, r.blocker);
    for (int at = 0; at < CREWS; at++) printf(" %" PRIu64, r.crews[at]);
    printf(" %" PRIu64 "\n", sum);
}
