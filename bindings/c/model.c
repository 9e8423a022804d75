#include "model.h"

#include <stdio.h>
#include <string.h>

int facts, failures;

void expect(bool holds, const char *fact, const char *file, int line) {
    facts++;
    if (!holds) {
        printf("%s:%d: not so: %s\n", file, line, fact);
        failures++;
    }
}

uint8_t build(struct model *m, size_t n, size_t count, const uint32_t *pairs) {
    memset(m, 0, sizeof *m);
    m->n = n;
    return bracket_from_pairs(n, count, pairs, 2 * count, PATTERN(m), LENT(m->blocks), LENT(m->building));
}

uint8_t plan(struct model *m) {
    return bracket_plan(m->n, PATTERN(m), PLAN(m), LENT(m->degrees), LENT(m->placed), LENT(m->mark), LENT(m->level), LENT(m->queue));
}

bool same(const uint32_t *list, const uint32_t *wanted, size_t count) {
    return memcmp(list, wanted, count * sizeof *list) == 0;
}
