/* Calls the proved functions from C: the header, the readings, columns, empty lists, then a bracket solved on both routes. */
#include "model.h"

#include <stdio.h>

/* Adds to block (row, col). */
static void add(struct model *m, size_t row, uint32_t col, const float *block, float sign) {
    uint32_t slot;
    if (bracket_block_index(m->n, PATTERN(m), row, col, &slot) != 0 || slot == BRACKET_ABSENT) {
        EXPECT(false);
        return;
    }
    for (size_t k = 0; k < 4; k++) m->blocks[4 * slot + k] += sign * block[k];
}

/*
 * The bracket: particles 0 and 1 at the wall, 2 and 3 one step out; a mass of 1 each, and springs of stiffness 8 along the
 * edges and across. The wall's particles are pinned.
 */
static void make_bracket(struct model *m) {
    const uint32_t pairs[] = {0, 2, 1, 3, 2, 3, 0, 3, 1, 2};
    const float springs[][4] = {{8, 0, 0, 0}, {8, 0, 0, 0}, {0, 0, 0, 8}, {4, 4, 4, 4}, {4, -4, -4, 4}};
    const float mass[] = {1, 0, 0, 1};
    EXPECT(build(m, 4, 5, pairs) == 0 && plan(m) == 0);
    for (uint32_t p = 0; p < 4; p++) add(m, p, p, mass, 1);
    for (size_t s = 0; s < 5; s++) {
        const uint32_t a = pairs[2 * s], b = pairs[2 * s + 1];
        add(m, a, a, springs[s], 1);
        add(m, b, b, springs[s], 1);
        add(m, a, b, springs[s], -1);
        add(m, b, a, springs[s], -1);
    }
    for (size_t p = 0; p < 2; p++) EXPECT(bracket_make_dirichlet(4, PATTERN(m), p, LENT(m->blocks)) == 0);
}

/* The squared length of b - A x. */
static float lack(const struct model *m) {
    float product[DOFS], sum = 0;
    EXPECT(bracket_mul(m->n, PATTERN(m), LENT(m->blocks), LENT(m->x), LENT(product)) == 0);
    for (size_t k = 0; k < 2 * m->n; k++) sum += (m->b[k] - product[k]) * (m->b[k] - product[k]);
    return sum;
}

static uint32_t factor_step(struct model *m, size_t max_dense_dofs) {
    uint32_t how = 9;
    size_t row = 9;
    float pivot = 9;
    EXPECT(bracket_factorize_step_matrix(
        m->n, PATTERN(m), LENT(m->blocks), PLAN(m), max_dense_dofs, LENT(m->values), LENT(m->preconditioner), &how, &row, &pivot) == 0);
    return how;
}

static uint8_t solve_step(struct model *m, bool factored, float tolerance, size_t max_dense_dofs, uint32_t *counts, struct told *t) {
    return bracket_solve_step(
        m->n, PATTERN(m), LENT(m->blocks), PLAN(m), LENT(m->values), factored, LENT(m->preconditioner), LENT(m->b),
        tolerance, 50, max_dense_dofs, LENT(m->x), LENT(m->scratch), WORK(m), counts, TOLD(t));
}

static uint8_t respond(struct model *m, uint32_t particle, float *gain, uint32_t *counts, struct told *t) {
    const uint8_t pinned[] = {1, 1, 0, 0};
    const float gradient[] = {0, -1};
    return bracket_response_into(
        m->n, PATTERN(m), LENT(m->blocks), PLAN(m), LENT(m->values), true, LENT(m->preconditioner), 0.001f, 50, 8,
        LENT(pinned), 1, &particle, 1, LENT(gradient), LENT(m->x), LENT(m->b), LENT(m->scratch), WORK(m), counts, gain, TOLD(t));
}

/* Both outer particles' columns, and from them what a constraint that pulls each of them down is answered. */
static void combine_columns(struct model *m, uint32_t *counts) {
    const uint8_t pinned[] = {1, 1, 0, 0};
    const float down[] = {0, -1};
    uint32_t column_of[4], ended[BRACKET_ENDED] = {0}, how = 9;
    float columns[BRACKET_ROOM_COLUMNS(4, 2)], out[BRACKET_ROOM_VECTOR(4)], gain = 9, solved = 9;
    size_t loaded = 9;
    struct told t = {9, 9, 9, 9};
    EXPECT(bracket_clear_columns(4, LENT(column_of), &loaded) == 0);
    for (size_t p = 0; p < 4; p++) EXPECT(bracket_load_particle(4, LENT(pinned), loaded, p, LENT(column_of), &loaded) == 0);
    EXPECT(loaded == 2);
    EXPECT(bracket_compute_columns(
        4, PATTERN(m), LENT(m->blocks), PLAN(m), LENT(m->values), true, LENT(m->preconditioner), 0.001f, 50, 8, LENT(pinned), loaded,
        LENT(column_of), LENT(columns), LENT(m->b), LENT(m->scratch), WORK(m), counts, ended) == 0);
    EXPECT(ended[BRACKET_COUNT_DIRECT] == 4 && ended[BRACKET_COUNT_CURVATURE] == 0 && ended[BRACKET_COUNT_LIMIT] == 0);
    for (uint32_t p = 2; p < 4; p++) {
        EXPECT(bracket_response_from_columns(
            4, LENT(pinned), loaded, LENT(column_of), LENT(columns), 1, &p, 1, LENT(down), LENT(out), &gain, &how) == 0);
        EXPECT(how == BRACKET_COMBINED && respond(m, p, &solved, counts, &t) == 0 && gain == solved);
        for (size_t k = 0; k < 8; k++) EXPECT(out[k] - m->x[k] < 1e-6f && m->x[k] - out[k] < 1e-6f);
    }
}

static void solve_bracket(void) {
    struct model m;
    struct told t = {9, 9, 9, 9};
    uint32_t counts[BRACKET_COUNTS] = {0};
    float gain = 9;
    make_bracket(&m);
    m.b[5] = -1;
    EXPECT(factor_step(&m, 8) == BRACKET_FACTORED);
    EXPECT(solve_step(&m, true, 0.001f, 8, counts, &t) == 0 && t.how == BRACKET_DIRECT && t.count == 0);
    EXPECT(lack(&m) < 1e-6f);
    EXPECT(factor_step(&m, 7) == BRACKET_UNFACTORED);
    EXPECT(solve_step(&m, true, 0.001f, 7, counts, &t) == 0 && t.how == BRACKET_CONVERGED && t.count > 0);
    EXPECT(lack(&m) < 1e-5f && t.residual_squared < 1e-5f);
    EXPECT(solve_step(&m, true, -1, 8, counts, &t) == BRACKET_BAD_SETTINGS && t.how == BRACKET_CONVERGED);
    EXPECT(respond(&m, 2, &gain, counts, &t) == 0 && t.how == BRACKET_DIRECT && gain > 0);
    EXPECT(respond(&m, 1, &gain, counts, &t) == 0 && t.how == BRACKET_NOTHING && gain == 0 && m.x[4] == 0);
    EXPECT(respond(&m, 4, &gain, counts, &t) == BRACKET_OUT_OF_RANGE);
    EXPECT(same(counts, (const uint32_t[]){2, 0, 0, 1, 0, 0, 2}, BRACKET_COUNTS));
    combine_columns(&m, counts);
    EXPECT(same(counts, (const uint32_t[]){8, 0, 0, 1, 0, 0, 2}, BRACKET_COUNTS));
}

/* The word handed in says how the program was built. */
int main(int words, char **word) {
    read_header();
    read_all();
    read_columns();
    lend_nothing();
    solve_bracket();
    printf("bindings: from C%s%s, %d facts asked for, %d do not hold\n", words > 1 ? " " : "", words > 1 ? word[1] : "", facts, failures);
    return failures != 0;
}
