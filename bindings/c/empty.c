/*
 * Every call with lists that are empty, and null: accepted where there are no particles, no pairs or no entries, or where the
 * step isn't dense; refused as short, and nothing touched, where there are some.
 */
#include "model.h"

#define NONE NULL, 0
#define NO_PATTERN NONE, NONE, NONE
#define NO_PLAN NONE, NONE, NONE, NONE
#define NO_WORK NONE, NONE, NONE, NONE

/* The lists of no particles: row_offsets and row_start still have one item, the others none. */
#define BARE_PATTERN(start) (start), 1, NONE, NONE
#define BARE_PLAN(start) NONE, NONE, NONE, (start), 1

static void build_nothing(void) {
    uint32_t start[1] = {7};
    EXPECT(bracket_from_pairs(0, 0, NONE, BARE_PATTERN(start), NONE, NONE) == 0 && start[0] == 0);
    start[0] = 7;
    EXPECT(bracket_pattern_from_pairs(0, 0, NONE, BARE_PATTERN(start), NONE) == 0 && start[0] == 0);
    EXPECT(bracket_from_pairs(0, 0, NONE, NO_PATTERN, NONE, NONE) == BRACKET_SHORT_BUFFER);
    EXPECT(bracket_pattern_from_pairs(0, 0, NONE, NO_PATTERN, NONE) == BRACKET_SHORT_BUFFER);
    struct model m;
    EXPECT(build(&m, 2, 0, NULL) == 0 && m.row_offsets[2] == 2);
    EXPECT(bracket_from_pairs(2, 0, NONE, PATTERN(&m), LENT(m.blocks), NONE) == 0 && m.row_offsets[2] == 2);
    EXPECT(bracket_pattern_from_pairs(2, 0, NONE, PATTERN(&m), NONE) == 0 && m.row_offsets[2] == 2);
}

static void ask_nothing(void) {
    const uint32_t start[1] = {0};
    uint32_t slot = 7, col = 7;
    size_t first = 7, len = 7;
    EXPECT(bracket_times(1, 0, 0, 1, 1, 1, NONE) == BRACKET_SHORT_BUFFER && bracket_inverse(1, 0, 0, 1, NONE) == BRACKET_SHORT_BUFFER);
    EXPECT(bracket_block_index(0, BARE_PATTERN(start), 0, 0, &slot) == BRACKET_OUT_OF_RANGE);
    EXPECT(bracket_diagonal_index(0, BARE_PATTERN(start), 0, &slot) == BRACKET_OUT_OF_RANGE);
    EXPECT(bracket_block_index(1, NO_PATTERN, 0, 0, &slot) == BRACKET_SHORT_BUFFER);
    EXPECT(bracket_diagonal_index(1, NO_PATTERN, 0, &slot) == BRACKET_SHORT_BUFFER);
    EXPECT(bracket_row_first(0, start, 1, NONE, 0, &first) == BRACKET_OUT_OF_RANGE);
    EXPECT(bracket_row_len(1, NONE, NONE, 0, &len) == BRACKET_SHORT_BUFFER);
    EXPECT(bracket_row_col(1, NONE, NONE, 0, 0, &col) == BRACKET_SHORT_BUFFER);
    EXPECT(bracket_row_slot(1, NONE, NONE, 0, 0, &slot) == BRACKET_SHORT_BUFFER);
    EXPECT(slot == 7 && col == 7 && first == 7 && len == 7);
    const uint32_t rows[2] = {0, 0};
    EXPECT(bracket_row_first(1, LENT(rows), NONE, 0, &first) == 0 && first == 0);
    EXPECT(bracket_row_len(1, LENT(rows), NONE, 0, &len) == 0 && len == 0);
    EXPECT(bracket_row_col(1, LENT(rows), NONE, 0, 0, &col) == 0 && col == BRACKET_ABSENT);
}

static void work_on_nothing(void) {
    const uint32_t start[1] = {0};
    EXPECT(bracket_clear_values(0, BARE_PATTERN(start), NONE) == 0);
    EXPECT(bracket_mul(0, BARE_PATTERN(start), NONE, NONE, NONE) == 0);
    EXPECT(bracket_make_dirichlet(0, BARE_PATTERN(start), 0, NONE) == BRACKET_OUT_OF_RANGE);
    EXPECT(bracket_make_dirichlet_marked(0, BARE_PATTERN(start), NONE, NONE) == 0);
    EXPECT(bracket_update_preconditioner(0, BARE_PATTERN(start), NONE, NONE) == 0);
    EXPECT(bracket_clear_values(1, NO_PATTERN, NONE) == BRACKET_SHORT_BUFFER);
    EXPECT(bracket_mul(1, NO_PATTERN, NONE, NONE, NONE) == BRACKET_SHORT_BUFFER);
    EXPECT(bracket_make_dirichlet(1, NO_PATTERN, 0, NONE) == BRACKET_SHORT_BUFFER);
    EXPECT(bracket_make_dirichlet_marked(1, NO_PATTERN, NONE, NONE) == BRACKET_SHORT_BUFFER);
    EXPECT(bracket_update_preconditioner(1, NO_PATTERN, NONE, NONE) == BRACKET_SHORT_BUFFER);
}

static void factor_nothing(void) {
    const uint32_t start[1] = {0};
    uint32_t row_start[1] = {7}, how = 9;
    size_t row = 9;
    float pivot = 9;
    EXPECT(bracket_plan(0, BARE_PATTERN(start), BARE_PLAN(row_start), NONE, NONE, NONE, NONE, NONE) == 0 && row_start[0] == 0);
    EXPECT(bracket_plan(1, NO_PATTERN, NO_PLAN, NONE, NONE, NONE, NONE, NONE) == BRACKET_SHORT_BUFFER);
    EXPECT(bracket_factorize(1, NO_PATTERN, NONE, NO_PLAN, NONE, &how, &row, &pivot) == BRACKET_SHORT_BUFFER && how == 9);
    EXPECT(bracket_factorize(0, BARE_PATTERN(start), NONE, BARE_PLAN(row_start), NONE, &how, &row, &pivot) == 0);
    EXPECT(how == BRACKET_FACTORED && row == 9 && pivot == 9);
    EXPECT(bracket_solve(0, BARE_PLAN(row_start), NONE, NONE, NONE, NONE) == 0);
    EXPECT(bracket_solve(1, NO_PLAN, NONE, NONE, NONE, NONE) == BRACKET_SHORT_BUFFER);
    EXPECT(bracket_factorize_step_matrix(
        0, BARE_PATTERN(start), NONE, BARE_PLAN(row_start), 0, NONE, NONE, &how, &row, &pivot) == 0 && how == BRACKET_FACTORED);
    how = 9;
    EXPECT(bracket_factorize_step_matrix(1, NO_PATTERN, NONE, NO_PLAN, 0, NONE, NONE, &how, &row, &pivot) == BRACKET_SHORT_BUFFER && how == 9);
}

static void solve_nothing(void) {
    const uint32_t start[1] = {0};
    uint32_t counts[BRACKET_COUNTS] = {0};
    struct told t = {9, 9, 9, 9};
    float gain = 9;
    EXPECT(bracket_conjugate_gradient(1, NO_PATTERN, NONE, NONE, NONE, 0, 1, NONE, NO_WORK, TOLD(&t)) == BRACKET_SHORT_BUFFER);
    EXPECT(bracket_solve_step(
        1, NO_PATTERN, NONE, NO_PLAN, NONE, false, NONE, NONE, 0, 1, 0, NONE, NONE, NO_WORK, counts, TOLD(&t)) == BRACKET_SHORT_BUFFER);
    EXPECT(bracket_response_into(
        1, NO_PATTERN, NONE, NO_PLAN, NONE, false, NONE, 0, 1, 0, NONE, 0, NONE, NONE, NONE, NONE, NONE, NO_WORK, counts, &gain, TOLD(&t))
        == BRACKET_SHORT_BUFFER);
    EXPECT(t.how == 9 && t.count == 9 && t.residual_squared == 9 && t.denominator == 9 && gain == 9);
    EXPECT(bracket_conjugate_gradient(0, BARE_PATTERN(start), NONE, NONE, NONE, 0, 1, NONE, NO_WORK, TOLD(&t)) == 0 && t.how == BRACKET_ZERO);
    EXPECT(bracket_solve_step(
        0, BARE_PATTERN(start), NONE, BARE_PLAN(start), NONE, true, NONE, NONE, 0, 1, 0, NONE, NONE, NO_WORK, counts, TOLD(&t)) == 0);
    EXPECT(t.how == BRACKET_DIRECT && t.count == 0);
    EXPECT(bracket_response_into(
        0, BARE_PATTERN(start), NONE, BARE_PLAN(start), NONE, true, NONE, 0, 1, 0, NONE, 0, NONE, NONE, NONE, NONE, NONE, NO_WORK, counts, &gain,
        TOLD(&t)) == 0);
    EXPECT(t.how == BRACKET_NOTHING && gain == 0);
    EXPECT(same(counts, (const uint32_t[]){1, 0, 0, 0, 0, 0, 2}, BRACKET_COUNTS));
}

/* Columns of no particles, and of one whose lists aren't lent. A count above 0 is no table of none. */
static void column_of_nothing(void) {
    const uint32_t start[1] = {0};
    uint32_t counts[BRACKET_COUNTS] = {0}, ended[BRACKET_ENDED] = {7, 7, 7, 7, 7, 7}, how = 9;
    size_t loaded = 7;
    float gain = 9, block[4] = {9, 9, 9, 9};
    EXPECT(bracket_clear_columns(1, NONE, &loaded) == BRACKET_SHORT_BUFFER && loaded == 7);
    EXPECT(bracket_load_particle(1, NONE, 0, 0, NONE, &loaded) == BRACKET_SHORT_BUFFER);
    EXPECT(bracket_load_particle(0, NONE, 0, 0, NONE, &loaded) == BRACKET_OUT_OF_RANGE && loaded == 7);
    EXPECT(bracket_clear_columns(0, NONE, &loaded) == 0 && loaded == 0);
    EXPECT(bracket_compute_columns(
        1, NO_PATTERN, NONE, NO_PLAN, NONE, false, NONE, 0, 1, 0, NONE, 0, NONE, NONE, NONE, NONE, NO_WORK, counts, ended) == BRACKET_SHORT_BUFFER);
    EXPECT(bracket_compute_columns(
        0, BARE_PATTERN(start), NONE, BARE_PLAN(start), NONE, true, NONE, 0, 1, 0, NONE, 1, NONE, NONE, NONE, NONE, NO_WORK, counts, ended)
        == BRACKET_BAD_PLAN && ended[0] == 7);
    EXPECT(bracket_compute_columns(
        0, BARE_PATTERN(start), NONE, BARE_PLAN(start), NONE, true, NONE, 0, 1, 0, NONE, 0, NONE, NONE, NONE, NONE, NO_WORK, counts, ended) == 0);
    EXPECT(same(ended, (const uint32_t[]){0, 0, 0, 0, 0, 0}, BRACKET_ENDED));
    EXPECT(same(counts, (const uint32_t[]){0, 0, 0, 0, 0, 0, 2}, BRACKET_COUNTS));
    EXPECT(bracket_response_from_columns(1, NONE, 0, NONE, NONE, 0, NONE, NONE, NONE, &gain, &how) == BRACKET_SHORT_BUFFER);
    EXPECT(bracket_response_from_columns(0, NONE, 1, NONE, NONE, 0, NONE, NONE, NONE, &gain, &how) == BRACKET_BAD_PLAN && how == 9 && gain == 9);
    EXPECT(bracket_response_from_columns(0, NONE, 0, NONE, NONE, 0, NONE, NONE, NONE, &gain, &how) == 0 && how == BRACKET_NOTHING && gain == 0);
    EXPECT(bracket_particle_block_from_columns(1, NONE, 0, NONE, NONE, 0, NONE, &how, block) == BRACKET_SHORT_BUFFER);
    EXPECT(bracket_particle_block_from_columns(0, NONE, 1, NONE, NONE, 0, NONE, &how, block) == BRACKET_OUT_OF_RANGE && block[0] == 9);
}

/* One particle with the identity, iterated: no plan, factor or scratch is lent, and to the response no entry. */
static void step_without_a_plan(void) {
    struct model m;
    uint32_t counts[BRACKET_COUNTS] = {0}, how = 9;
    struct told t = {9, 9, 9, 9};
    size_t row = 9;
    float pivot = 9, gain = 9;
    const uint8_t pinned[1] = {0};
    EXPECT(build(&m, 1, 0, NULL) == 0 && bracket_make_dirichlet(1, PATTERN(&m), 0, LENT(m.blocks)) == 0);
    m.b[0] = 3;
    m.b[1] = 4;
    EXPECT(bracket_factorize_step_matrix(1, PATTERN(&m), LENT(m.blocks), NO_PLAN, 1, NONE, LENT(m.preconditioner), &how, &row, &pivot) == 0);
    EXPECT(how == BRACKET_UNFACTORED && row == 9 && pivot == 9);
    EXPECT(bracket_solve_step(
        1, PATTERN(&m), LENT(m.blocks), NO_PLAN, NONE, false, LENT(m.preconditioner), LENT(m.b), 0, 5, 1, LENT(m.x), NONE, WORK(&m), counts,
        TOLD(&t)) == 0);
    EXPECT(t.how == BRACKET_CONVERGED && m.x[0] == 3 && m.x[1] == 4);
    EXPECT(bracket_response_into(
        1, PATTERN(&m), LENT(m.blocks), NO_PLAN, NONE, false, LENT(m.preconditioner), 0, 5, 1, LENT(pinned), 0, NONE, NONE, LENT(m.x), LENT(m.b),
        NONE, WORK(&m), counts, &gain, TOLD(&t)) == 0);
    EXPECT(t.how == BRACKET_NOTHING && gain == 0 && m.x[0] == 0);
    EXPECT(same(counts, (const uint32_t[]){0, 0, 0, 1, 0, 0, 0}, BRACKET_COUNTS));
    const uint32_t column_of[1] = {0};
    uint32_t ended[BRACKET_ENDED] = {7, 7, 7, 7, 7, 7};
    float columns[4];
    EXPECT(bracket_compute_columns(
        1, PATTERN(&m), LENT(m.blocks), NO_PLAN, NONE, false, LENT(m.preconditioner), 0, 5, 1, LENT(pinned), 1, LENT(column_of), LENT(columns),
        LENT(m.b), NONE, WORK(&m), counts, ended) == 0);
    EXPECT(same(ended, (const uint32_t[]){0, 0, 0, 2, 0, 0}, BRACKET_ENDED) && columns[0] == 1 && columns[1] == 0 && columns[3] == 1);
}

void lend_nothing(void) {
    build_nothing();
    ask_nothing();
    work_on_nothing();
    factor_nothing();
    solve_nothing();
    column_of_nothing();
    step_without_a_plan();
}
