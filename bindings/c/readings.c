/* The starred readings (docs/RULES.md, section 11), marked particles pinned, and refused calls. */
#include "model.h"

/* One particle with this block. */
static void single(struct model *m, float c0x, float c0y, float c1x, float c1y) {
    const uint32_t none[1] = {0};
    EXPECT(build(m, 1, 0, none) == 0);
    EXPECT(plan(m) == 0);
    m->blocks[0] = c0x;
    m->blocks[1] = c0y;
    m->blocks[2] = c1x;
    m->blocks[3] = c1y;
}

static void read_plan(size_t n, size_t count, const uint32_t *pairs, const uint32_t *order, uint32_t envelope) {
    struct model m;
    EXPECT(build(&m, n, count, pairs) == 0);
    EXPECT(plan(&m) == 0);
    EXPECT(same(m.perm, order, n));
    EXPECT(m.row_start[2 * n] == envelope);
}

static void read_plans(void) {
    const uint32_t none[1] = {0}, one[] = {0}, chain[] = {0, 1, 1, 2}, pair[] = {0, 2};
    const uint32_t moved[] = {1, 2, 2, 3, 3, 4, 4, 5, 0, 3};
    read_plan(0, 0, none, none, 0);
    read_plan(1, 0, none, one, 3);
    read_plan(3, 2, chain, (const uint32_t[]){2, 1, 0}, 17);
    read_plan(4, 1, pair, (const uint32_t[]){2, 0, 3, 1}, 16);
    read_plan(6, 5, moved, (const uint32_t[]){5, 4, 0, 3, 2, 1}, 38);

    struct model m;
    EXPECT(build(&m, 1, 0, none) == 0 && plan(&m) == 0);
    EXPECT(same(m.row_start, (const uint32_t[]){0, 1, 3}, 3));
    EXPECT(build(&m, 3, 2, chain) == 0 && plan(&m) == 0);
    EXPECT(same(m.row_start, (const uint32_t[]){0, 1, 3, 6, 10, 13, 17}, 7));
}

/* Rows of two particles and their pair, in lists that are longer than needed. */
static void read_row(const struct model *m) {
    const uint32_t *starts = m->row_offsets, *cols = m->cols;
    size_t first = 7, len = 7;
    uint32_t col = 7;
    EXPECT(bracket_row_first(2, LENT(m->row_offsets), LENT(m->cols), 2, &first) == BRACKET_OUT_OF_RANGE);
    EXPECT(bracket_row_len(2, LENT(m->row_offsets), LENT(m->cols), SIZE_MAX, &len) == BRACKET_OUT_OF_RANGE);
    EXPECT(bracket_row_col(2, starts, 3, cols, 3, 2, 0, &col) == BRACKET_SHORT_BUFFER);
    EXPECT(bracket_row_col(2, starts, 2, cols, 4, 2, 0, &col) == BRACKET_SHORT_BUFFER);
    EXPECT(bracket_row_first(1025, starts, 0, cols, 0, 1025, &first) == BRACKET_TOO_MANY_PARTICLES);
    EXPECT(first == 7 && len == 7 && col == 7);
    EXPECT(bracket_row_first(2, LENT(m->row_offsets), LENT(m->cols), 1, &first) == 0 && first == 2);
    EXPECT(bracket_row_len(2, LENT(m->row_offsets), LENT(m->cols), 1, &len) == 0 && len == 2);
    EXPECT(bracket_row_col(2, starts, 3, cols, 4, 1, 0, &col) == 0 && col == 0);
    EXPECT(bracket_row_col(2, starts, 3, cols, 4, 1, 1, &col) == 0 && col == 1);
    EXPECT(bracket_row_col(2, LENT(m->row_offsets), LENT(m->cols), 1, 2, &col) == 0 && col == BRACKET_ABSENT);
}

/* A slot of the same rows, found without a test of the pattern; and of a row whose columns don't rise. */
static void read_slot(const struct model *m) {
    const uint32_t *starts = m->row_offsets, *cols = m->cols, falling[] = {4, 7, 2}, all[] = {0, 3};
    uint32_t slot = 7;
    EXPECT(bracket_row_slot(1025, starts, 0, cols, 0, 1025, 0, &slot) == BRACKET_TOO_MANY_PARTICLES);
    EXPECT(bracket_row_slot(2, starts, 3, cols, 3, 2, 0, &slot) == BRACKET_SHORT_BUFFER);
    EXPECT(bracket_row_slot(2, starts, 2, cols, 4, 2, 0, &slot) == BRACKET_SHORT_BUFFER);
    EXPECT(bracket_row_slot(2, LENT(m->row_offsets), LENT(m->cols), 2, 0, &slot) == BRACKET_OUT_OF_RANGE);
    EXPECT(bracket_row_slot(2, LENT(m->row_offsets), LENT(m->cols), SIZE_MAX, 0, &slot) == BRACKET_OUT_OF_RANGE);
    EXPECT(slot == 7);
    EXPECT(bracket_row_slot(2, starts, 3, cols, 4, 1, 0, &slot) == 0 && slot == 2);
    EXPECT(bracket_row_slot(2, LENT(m->row_offsets), LENT(m->cols), 1, 1, &slot) == 0 && slot == 3);
    EXPECT(bracket_row_slot(2, starts, 3, cols, 4, 1, 5, &slot) == 0 && slot == BRACKET_ABSENT);
    EXPECT(bracket_row_slot(1, LENT(all), LENT(falling), 0, 4, &slot) == 0 && slot == 0);
    EXPECT(bracket_row_slot(1, LENT(all), LENT(falling), 0, 7, &slot) == 0 && slot == BRACKET_ABSENT);
}

static void read_patterns(void) {
    const uint32_t repeats[] = {0, 1, 1, 0, 0, 1, 1, 1}, ghost[] = {9, 9}, outside[] = {0, 2};
    struct model m;
    EXPECT(build(&m, 2, 4, repeats) == 0);
    EXPECT(same(m.row_offsets, (const uint32_t[]){0, 2, 4}, 3));
    EXPECT(same(m.cols, (const uint32_t[]){0, 1, 0, 1}, 4));
    EXPECT(same(m.diagonal, (const uint32_t[]){0, 3}, 2));
    EXPECT(build(&m, 2, 1, outside) == BRACKET_OUT_OF_RANGE);
    EXPECT(build(&m, 2, 1, ghost) == 0);
    EXPECT(m.row_offsets[2] == 2);
    EXPECT(bracket_pattern_from_pairs(2, 4, LENT(repeats), PATTERN(&m), LENT(m.building)) == 0);
    EXPECT(m.row_offsets[2] == 4);
    uint32_t slot = 7;
    EXPECT(bracket_block_index(2, PATTERN(&m), 0, 1, &slot) == 0 && slot == 1);
    EXPECT(bracket_block_index(2, PATTERN(&m), 0, 5, &slot) == 0 && slot == BRACKET_ABSENT);
    EXPECT(bracket_diagonal_index(2, PATTERN(&m), 1, &slot) == 0 && slot == 3);
    EXPECT(bracket_diagonal_index(2, PATTERN(&m), 2, &slot) == BRACKET_OUT_OF_RANGE && slot == 3);
    read_row(&m);
    read_slot(&m);
}

static void read_factors(void) {
    struct model m;
    uint32_t how = 9;
    size_t row = 9;
    float pivot = 9;
    single(&m, 4, 2, 2, 10);
    EXPECT(bracket_factorize(1, PATTERN(&m), LENT(m.blocks), PLAN(&m), LENT(m.values), &how, &row, &pivot) == 0);
    EXPECT(how == BRACKET_FACTORED && row == 9 && pivot == 9);
    EXPECT(m.values[0] == 2 && m.values[1] == 1 && m.values[2] == 3);
    m.b[0] = 6;
    m.b[1] = 12;
    EXPECT(bracket_solve(1, PLAN(&m), LENT(m.values), LENT(m.b), LENT(m.x), LENT(m.scratch)) == 0);
    EXPECT(m.x[0] == 1 && m.x[1] == 1);

    single(&m, 1, 2, 2, 4);
    EXPECT(bracket_factorize(1, PATTERN(&m), LENT(m.blocks), PLAN(&m), LENT(m.values), &how, &row, &pivot) == 0);
    EXPECT(how == BRACKET_FAILED && row == 1 && pivot == 0);
    EXPECT(m.values[0] == 1 && m.values[1] == 2 && m.values[2] == 4);
}

/* One particle with the block (entry, 0), (0, entry), from x = 0 with tolerance 0. */
static struct told iterate(struct model *m, float entry, float bx, float by, size_t limit) {
    struct told t = {9, 9, 9, 9};
    single(m, 1, 0, 0, 1);
    EXPECT(bracket_update_preconditioner(1, PATTERN(m), LENT(m->blocks), LENT(m->preconditioner)) == 0);
    m->blocks[0] = m->blocks[3] = entry;
    m->b[0] = bx;
    m->b[1] = by;
    EXPECT(bracket_conjugate_gradient(
        1, PATTERN(m), LENT(m->blocks), LENT(m->preconditioner), LENT(m->b), 0, limit, LENT(m->x), WORK(m), TOLD(&t)) == 0);
    return t;
}

static void read_iterations(void) {
    struct model m;
    struct told t = iterate(&m, 1, 3, 4, 1);
    EXPECT(t.how == BRACKET_CONVERGED && t.count == 1 && m.x[0] == 3 && m.x[1] == 4);
    t = iterate(&m, 1, 3, 4, 0);
    EXPECT(t.how == BRACKET_LIMIT && t.count == 0 && m.x[0] == 0 && m.x[1] == 0);
    EXPECT(t.residual_squared == 25);
    t = iterate(&m, -1, 1, 0, 5);
    EXPECT(t.how == BRACKET_CURVATURE && t.count == 0 && t.denominator == -1);
    t = iterate(&m, 1, 0, 0, 5);
    EXPECT(t.how == BRACKET_ZERO && t.residual_squared == 0 && t.denominator == 0);
    EXPECT(bracket_conjugate_gradient(
        1, PATTERN(&m), LENT(m.blocks), LENT(m.preconditioner), LENT(m.b), -1, 5, LENT(m.x), WORK(&m), TOLD(&t)) == BRACKET_BAD_SETTINGS);
    EXPECT(t.how == BRACKET_ZERO);
}

static void read_plane(void) {
    float out[5] = {7, 7, 7, 7, 7};
    EXPECT(bracket_dot(1, 2, 3, 4) == 11);
    EXPECT(bracket_determinant(4, 2, 6, 8) == 20);
    EXPECT(bracket_root(2) == 0x1.6a09e6p+0f);
    EXPECT(bracket_root(0x1.fffffep-1f) == 0x1.fffffep-1f);
    EXPECT(bracket_times(4, 2, 6, 8, 1, 0.5f, out, 1) == BRACKET_SHORT_BUFFER && out[0] == 7);
    EXPECT(bracket_times(4, 2, 6, 8, 1, 0.5f, LENT(out)) == 0 && out[0] == 7 && out[1] == 6);
    EXPECT(bracket_inverse(2, 0, 0, 4, LENT(out)) == 0);
    EXPECT(out[0] == 0.5f && out[1] == 0 && out[2] == 0 && out[3] == 0.25f && out[4] == 7);
}

static void read_refusals(void) {
    const uint32_t chain[] = {0, 1, 1, 2};
    struct model m;
    EXPECT(build(&m, 1025, 0, chain) == BRACKET_TOO_MANY_PARTICLES);
    EXPECT(bracket_from_pairs(3, 4097, LENT(chain), PATTERN(&m), LENT(m.blocks), LENT(m.building)) == BRACKET_TOO_MANY_ENTRIES);
    EXPECT(build(&m, 3, 2, chain) == 0 && plan(&m) == 0);
    EXPECT(bracket_clear_values(3, PATTERN(&m), m.blocks, 27) == BRACKET_SHORT_BUFFER);
    m.cols[0] = 1;
    EXPECT(bracket_clear_values(3, PATTERN(&m), LENT(m.blocks)) == BRACKET_BAD_PATTERN);
    m.cols[0] = 0;
    EXPECT(bracket_clear_values(3, PATTERN(&m), LENT(m.blocks)) == 0);
    m.perm[0] = 1;
    EXPECT(bracket_solve(3, PLAN(&m), LENT(m.values), LENT(m.b), LENT(m.x), LENT(m.scratch)) == BRACKET_BAD_PLAN);
}

/* A chain of three, whose blocks hold sevens: the first and the last marked; then refusals, which leave the blocks as they are. */
static void read_pins(void) {
    const uint32_t chain[] = {0, 1, 1, 2};
    const uint8_t ends[] = {1, 0, 255}, all[] = {1, 1, 1};
    struct model m;
    EXPECT(build(&m, 3, 2, chain) == 0);
    for (size_t k = 0; k < 29; k++) m.blocks[k] = 7;
    EXPECT(bracket_make_dirichlet_marked(3, PATTERN(&m), LENT(ends), LENT(m.blocks)) == 0);
    for (size_t slot = 0; slot < 7; slot++) {
        const float own = slot == 0 || slot == 6 ? 1 : slot == 3 ? 7 : 0, beside = slot == 3 ? 7 : 0;
        EXPECT(m.blocks[4 * slot] == own && m.blocks[4 * slot + 3] == own);
        EXPECT(m.blocks[4 * slot + 1] == beside && m.blocks[4 * slot + 2] == beside);
    }
    EXPECT(bracket_make_dirichlet_marked(1025, PATTERN(&m), LENT(all), LENT(m.blocks)) == BRACKET_TOO_MANY_PARTICLES);
    EXPECT(bracket_make_dirichlet_marked(3, PATTERN(&m), all, 2, LENT(m.blocks)) == BRACKET_SHORT_BUFFER);
    EXPECT(bracket_make_dirichlet_marked(3, PATTERN(&m), LENT(all), m.blocks, 27) == BRACKET_SHORT_BUFFER);
    m.cols[5] = 0;
    EXPECT(bracket_make_dirichlet_marked(3, PATTERN(&m), LENT(all), LENT(m.blocks)) == BRACKET_BAD_PATTERN);
    EXPECT(m.blocks[12] == 7 && m.blocks[28] == 7);
}

void read_all(void) {
    read_plans();
    read_patterns();
    read_factors();
    read_iterations();
    read_plane();
    read_refusals();
    read_pins();
}
