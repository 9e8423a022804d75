/* The calls over columns: what each accepts, answers and leaves, and refuses; and one particle's columns, whose combination is the response. */
#include "model.h"

#include <math.h>
#include <string.h>

#define U BRACKET_UNLOADED

/* A table of columns for a model, its columns, and the tally and the places of the calls. */
struct table {
    size_t loaded;
    uint8_t pinned[PARTICLES];
    uint32_t column_of[PARTICLES];
    float columns[BRACKET_ROOM_COLUMNS(PARTICLES, 2)], rhs[DOFS], out[BRACKET_ROOM_PARTICLE_BLOCK(PARTICLES)];
    uint32_t counts[BRACKET_COUNTS], ended[BRACKET_ENDED];
    float gain, block[4];
    uint32_t how;
};

#define TABLE(t) LENT((t)->pinned), (t)->loaded, LENT((t)->column_of), LENT((t)->columns)

static bool same_floats(const float *list, const float *wanted, size_t count) {
    return memcmp(list, wanted, count * sizeof *list) == 0;
}

/* A table with no particle loaded, and sevens in its other lists and places. */
static void begin(struct table *t, size_t n) {
    memset(t, 0, sizeof *t);
    for (size_t k = 0; k < sizeof t->columns / sizeof *t->columns; k++) t->columns[k] = 7;
    for (size_t k = 0; k < sizeof t->out / sizeof *t->out; k++) t->out[k] = 7;
    for (size_t k = 0; k < BRACKET_ENDED; k++) t->ended[k] = 7;
    for (size_t k = 0; k < 4; k++) t->block[k] = 7;
    t->gain = 7;
    t->how = 9;
    EXPECT(bracket_clear_columns(n, LENT(t->column_of), &t->loaded) == 0);
}

static void read_clearing(void) {
    uint32_t column_of[] = {0, 9, 1};
    size_t loaded = 7;
    EXPECT(bracket_clear_columns(1025, LENT(column_of), &loaded) == BRACKET_TOO_MANY_PARTICLES);
    EXPECT(bracket_clear_columns(3, column_of, 2, &loaded) == BRACKET_SHORT_BUFFER);
    EXPECT(same(column_of, (const uint32_t[]){0, 9, 1}, 3) && loaded == 7);
    EXPECT(bracket_clear_columns(2, LENT(column_of), &loaded) == 0);
    EXPECT(same(column_of, (const uint32_t[]){U, U, 1}, 3) && loaded == 0);
}

/* The last place is past n, and isn't looked at. */
static void read_loading(void) {
    const uint8_t pinned[] = {0, 1, 0};
    uint32_t column_of[] = {U, U, U, 2};
    size_t loaded = 0;
    EXPECT(bracket_load_particle(3, LENT(pinned), 0, 2, LENT(column_of), &loaded) == 0 && loaded == 1);
    EXPECT(bracket_load_particle(3, LENT(pinned), 1, 0, LENT(column_of), &loaded) == 0 && loaded == 2);
    EXPECT(same(column_of, (const uint32_t[]){1, U, 0, 2}, 4));
    loaded = 7;
    EXPECT(bracket_load_particle(3, LENT(pinned), 2, 1, LENT(column_of), &loaded) == 0 && loaded == 2);
    loaded = 7;
    EXPECT(bracket_load_particle(3, LENT(pinned), 2, 2, LENT(column_of), &loaded) == 0 && loaded == 2);
    loaded = 7;
    EXPECT(bracket_load_particle(1025, LENT(pinned), 2, 2, LENT(column_of), &loaded) == BRACKET_TOO_MANY_PARTICLES);
    EXPECT(bracket_load_particle(3, pinned, 2, 2, 2, LENT(column_of), &loaded) == BRACKET_SHORT_BUFFER);
    EXPECT(bracket_load_particle(3, LENT(pinned), 2, 2, column_of, 2, &loaded) == BRACKET_SHORT_BUFFER);
    EXPECT(bracket_load_particle(3, LENT(pinned), 2, 3, LENT(column_of), &loaded) == BRACKET_OUT_OF_RANGE);
    EXPECT(bracket_load_particle(3, LENT(pinned), 2, SIZE_MAX, LENT(column_of), &loaded) == BRACKET_OUT_OF_RANGE);
    EXPECT(bracket_load_particle(3, LENT(pinned), 1, 2, LENT(column_of), &loaded) == BRACKET_BAD_PLAN);
    EXPECT(bracket_load_particle(3, LENT(pinned), 3, 2, LENT(column_of), &loaded) == BRACKET_BAD_PLAN);
    const uint8_t pinned_later[] = {1, 1, 0};
    EXPECT(bracket_load_particle(3, LENT(pinned_later), 2, 2, LENT(column_of), &loaded) == BRACKET_BAD_PLAN);
    EXPECT(same(column_of, (const uint32_t[]){1, U, 0, 2}, 4) && loaded == 7);
}

/* Twenty particles, the first sixteen loaded, the last one pinned. */
static void read_the_limit(void) {
    uint8_t pinned[20] = {0};
    uint32_t column_of[20];
    size_t loaded = 0;
    pinned[19] = 1;
    EXPECT(bracket_clear_columns(20, LENT(column_of), &loaded) == 0);
    for (size_t p = 0; p < 16; p++)
        EXPECT(bracket_load_particle(20, LENT(pinned), p, p, LENT(column_of), &loaded) == 0 && loaded == p + 1 && column_of[p] == p);
    EXPECT(bracket_load_particle(20, LENT(pinned), 16, 16, LENT(column_of), &loaded) == BRACKET_TOO_MANY_ENTRIES);
    EXPECT(bracket_load_particle(20, LENT(pinned), 16, 16, column_of, 17, &loaded) == BRACKET_TOO_MANY_ENTRIES);
    EXPECT(bracket_load_particle(20, LENT(pinned), 16, 16, column_of, 16, &loaded) == BRACKET_SHORT_BUFFER);
    EXPECT(bracket_load_particle(20, pinned, 16, 16, 16, LENT(column_of), &loaded) == BRACKET_SHORT_BUFFER);
    EXPECT(bracket_load_particle(16, LENT(pinned), 16, 16, LENT(column_of), &loaded) == BRACKET_OUT_OF_RANGE);
    EXPECT(column_of[16] == U && loaded == 16);
    EXPECT(bracket_load_particle(20, LENT(pinned), 16, 19, LENT(column_of), &loaded) == 0 && loaded == 16);
    EXPECT(bracket_load_particle(20, LENT(pinned), 16, 3, LENT(column_of), &loaded) == 0 && loaded == 16);
    EXPECT(bracket_load_particle(20, LENT(pinned), 17, 19, LENT(column_of), &loaded) == BRACKET_BAD_PLAN);
    column_of[16] = 16;
    EXPECT(bracket_load_particle(20, LENT(pinned), 17, 19, LENT(column_of), &loaded) == BRACKET_BAD_PLAN);
    EXPECT(bracket_load_particle(20, LENT(pinned), 17, 3, LENT(column_of), &loaded) == BRACKET_BAD_PLAN);
}

/* The need of a count that no list holds, which doesn't wrap: a short list, and past the limit another number's table. */
static void read_the_need(void) {
    const uint8_t pinned[1] = {0};
    const uint32_t column_of[1] = {0};
    float columns[68], out[2] = {7, 7}, gain = 7;
    uint32_t how = 9;
    const size_t counts[] = {2, 17, 18, SIZE_MAX / 4 + 1, SIZE_MAX};
    const uint8_t wanted[] = {BRACKET_BAD_PLAN, BRACKET_BAD_PLAN, BRACKET_SHORT_BUFFER, BRACKET_SHORT_BUFFER, BRACKET_SHORT_BUFFER};
    for (size_t k = 0; k < 68; k++) columns[k] = 7;
    for (size_t k = 0; k < 5; k++)
        EXPECT(bracket_response_from_columns(
            1, LENT(pinned), counts[k], LENT(column_of), LENT(columns), 0, NULL, 0, NULL, 0, LENT(out), &gain, &how) == wanted[k]);
    EXPECT(bracket_response_from_columns(
        1, LENT(pinned), 17, LENT(column_of), columns, 64, 0, NULL, 0, NULL, 0, LENT(out), &gain, &how) == BRACKET_SHORT_BUFFER);
    EXPECT(out[0] == 7 && gain == 7 && how == 9);
    EXPECT(bracket_response_from_columns(
        1, LENT(pinned), 1, LENT(column_of), columns, 4, 0, NULL, 0, NULL, 0, LENT(out), &gain, &how) == 0);
    EXPECT(out[0] == 0 && gain == 0 && how == BRACKET_NOTHING);
}

/* The settings of a step. */
struct settings {
    float tolerance;
    size_t max_iterations, max_dense_dofs;
};

static uint8_t compute(struct model *m, struct table *t, struct settings s) {
    return bracket_compute_columns(
        m->n, PATTERN(m), LENT(m->blocks), PLAN(m), LENT(m->values), true, LENT(m->preconditioner), s.tolerance, s.max_iterations,
        s.max_dense_dofs, LENT(t->pinned), t->loaded, LENT(t->column_of), LENT(t->columns), LENT(t->rhs), LENT(m->scratch), WORK(m),
        t->counts, t->ended);
}

static uint8_t respond(struct model *m, struct table *t, struct settings s, const float *gradient, struct told *told) {
    const uint32_t particle = 0;
    return bracket_response_into(
        m->n, PATTERN(m), LENT(m->blocks), PLAN(m), LENT(m->values), true, LENT(m->preconditioner), s.tolerance, s.max_iterations,
        s.max_dense_dofs, LENT(t->pinned), 1, &particle, 1, gradient, 2, LENT(m->x), LENT(t->rhs), LENT(m->scratch), WORK(m), t->counts,
        &t->gain, TOLD(told));
}

static uint8_t combine(struct table *t, size_t n, size_t entries, const uint32_t *particles, const float *gradients) {
    return bracket_response_from_columns(
        n, TABLE(t), entries, particles, entries, gradients, 2 * entries, LENT(t->out), &t->gain, &t->how);
}

static uint8_t block_of(struct table *t, size_t n, size_t particle) {
    return bracket_particle_block_from_columns(n, TABLE(t), particle, LENT(t->out), &t->how, t->block);
}

/* One particle with this block, factored for the step by these settings, and loaded. */
static void single(struct model *m, struct table *t, const float *block, struct settings s) {
    uint32_t how = 9;
    size_t row = 9;
    float pivot = 9;
    EXPECT(build(m, 1, 0, NULL) == 0 && plan(m) == 0);
    memcpy(m->blocks, block, 4 * sizeof *block);
    EXPECT(bracket_factorize_step_matrix(
        1, PATTERN(m), LENT(m->blocks), PLAN(m), s.max_dense_dofs, LENT(m->values), LENT(m->preconditioner), &how, &row, &pivot) == 0);
    begin(t, 1);
    EXPECT(bracket_load_particle(1, LENT(t->pinned), 0, 0, LENT(t->column_of), &t->loaded) == 0 && t->loaded == 1);
}

/* The block (1, 1), (1, 2): its columns (2, -1) and (-1, 1) are exact on either route, and what is combined from them is the response. */
static void read_the_columns(void) {
    const float block[] = {1, 1, 1, 2}, columns[] = {2, -1, -1, 1, 7}, gradient[] = {3, 4};
    const uint32_t particle[] = {0};
    for (size_t dense = 0; dense < 2; dense++) {
        const struct settings s = {0, 5, dense ? 2 : 1};
        const size_t ended = dense ? BRACKET_COUNT_DIRECT : BRACKET_COUNT_CONVERGED;
        struct model m;
        struct table t;
        struct told told;
        single(&m, &t, block, s);
        EXPECT(compute(&m, &t, s) == 0);
        EXPECT(same_floats(t.columns, columns, 5));
        for (size_t k = 0; k < BRACKET_ENDED; k++) EXPECT(t.ended[k] == (k == ended ? 2 : 0) && t.counts[k] == t.ended[k]);
        EXPECT(t.counts[BRACKET_COUNT_REFUSED] == 0);
        EXPECT(m.residual[0] == 0 && m.z[1] == 0 && t.rhs[0] == 0 && t.rhs[1] == 0);
        EXPECT(combine(&t, 1, 1, particle, gradient) == 0 && t.how == BRACKET_COMBINED && t.gain == 10);
        EXPECT(same_floats(t.out, (const float[]){2, 1, 7}, 3));
        EXPECT(respond(&m, &t, s, gradient, &told) == 0 && t.gain == 10 && same_floats(t.out, m.x, 2));
        EXPECT(block_of(&t, 1, 0) == 0 && t.how == BRACKET_COMBINED);
        EXPECT(same_floats(t.out, columns, 5) && same_floats(t.block, columns, 4));
        EXPECT(t.counts[ended] == 3);
    }
}

/* Columns from runs that broke down are accepted, and seen in `ended`; so are those that are near at once. */
static void read_endings(void) {
    const float sound[] = {1, 0, 0, 1}, negative[] = {-1, 0, 0, -1};
    const struct settings all[] = {{1, 5, 1}, {0, 5, 1}, {0, 0, 1}};
    const size_t ended[] = {BRACKET_COUNT_NEAR, BRACKET_COUNT_CURVATURE, BRACKET_COUNT_LIMIT};
    for (size_t a = 0; a < 3; a++) {
        struct model m;
        struct table t;
        single(&m, &t, a == 1 ? negative : sound, all[a]);
        EXPECT(compute(&m, &t, all[a]) == 0);
        for (size_t k = 0; k < BRACKET_ENDED; k++) EXPECT(t.ended[k] == (k == ended[a] ? 2 : 0) && t.counts[k] == t.ended[k]);
    }
}

/* Two particles by themselves, 4 and 16 times the identity, the second one loaded first; then none loaded. */
static void read_two(void) {
    const struct settings s = {0, 5, 4};
    const float wanted[] = {0, 0, 0.0625f, 0, 0, 0, 0, 0.0625f, 0.25f, 0, 0, 0, 0, 0.25f, 0, 0, 7};
    struct model m;
    struct table t;
    uint32_t how = 9;
    size_t row = 9;
    float pivot = 9;
    EXPECT(build(&m, 2, 0, NULL) == 0 && plan(&m) == 0);
    m.blocks[0] = m.blocks[3] = 4;
    m.blocks[4] = m.blocks[7] = 16;
    EXPECT(bracket_factorize_step_matrix(
        2, PATTERN(&m), LENT(m.blocks), PLAN(&m), 4, LENT(m.values), LENT(m.preconditioner), &how, &row, &pivot) == 0);
    begin(&t, 2);
    for (size_t p = 2; p-- > 0;) EXPECT(bracket_load_particle(2, LENT(t.pinned), t.loaded, p, LENT(t.column_of), &t.loaded) == 0);
    EXPECT(same(t.column_of, (const uint32_t[]){1, 0}, 2) && t.loaded == 2);
    EXPECT(compute(&m, &t, s) == 0 && t.ended[BRACKET_COUNT_DIRECT] == 4);
    for (size_t k = 0; k < 17; k++) EXPECT(t.columns[k] == wanted[k]);

    begin(&t, 2);
    m.residual[3] = m.scratch[3] = t.rhs[3] = 5;
    EXPECT(compute(&m, &t, s) == 0 && t.columns[0] == 7);
    EXPECT(m.residual[3] == 0 && m.scratch[3] == 0 && t.rhs[3] == 0);
    for (size_t k = 0; k < BRACKET_ENDED; k++) EXPECT(t.ended[k] == 0 && t.counts[k] == 0);
}

/* The first particle's run breaks down, the second's converges; one solve is left to the cap, and that is the first particle's. */
static void read_the_order(void) {
    const struct settings s = {0, 5, 0};
    const uint32_t after[] = {0, 0, 0, 0, 1, 3999999999, 0}, ended[] = {0, 0, 0, 2, 2, 0};
    struct model m;
    struct table t;
    EXPECT(build(&m, 2, 0, NULL) == 0);
    m.blocks[0] = m.blocks[3] = -1;
    m.blocks[4] = m.blocks[7] = 1;
    EXPECT(bracket_update_preconditioner(2, PATTERN(&m), LENT(m.blocks), LENT(m.preconditioner)) == 0);
    begin(&t, 2);
    for (size_t p = 2; p-- > 0;) EXPECT(bracket_load_particle(2, LENT(t.pinned), t.loaded, p, LENT(t.column_of), &t.loaded) == 0);
    t.counts[BRACKET_COUNT_LIMIT] = BRACKET_TALLY_CAP - 1;
    EXPECT(compute(&m, &t, s) == 0);
    EXPECT(same(t.ended, ended, BRACKET_ENDED) && same(t.counts, after, BRACKET_COUNTS));
}

/* Each refusal is one refused call, and leaves all else. */
static void read_refused_computing(void) {
    const float block[] = {1, 1, 1, 2};
    const struct settings s = {0, 5, 2}, iterated = {0, 5, 1}, below = {-1, 5, 2}, long_run = {0, 4097, 1};
    struct model m;
    struct table t;
    single(&m, &t, block, s);
    m.z[1] = 5;
    m.n = 1025;
    EXPECT(compute(&m, &t, s) == BRACKET_TOO_MANY_PARTICLES);
    m.n = 1;
    t.loaded = SIZE_MAX / 4 + 1;
    EXPECT(compute(&m, &t, s) == BRACKET_SHORT_BUFFER);
    t.loaded = 1;
    m.diagonal[0] = 1;
    EXPECT(compute(&m, &t, s) == BRACKET_BAD_PATTERN);
    m.diagonal[0] = 0;
    t.loaded = 2;
    EXPECT(compute(&m, &t, iterated) == BRACKET_BAD_PLAN);
    t.loaded = 1;
    t.pinned[0] = 1;
    EXPECT(compute(&m, &t, iterated) == BRACKET_BAD_PLAN);
    t.pinned[0] = 0;
    m.perm[0] = 1;
    EXPECT(compute(&m, &t, s) == BRACKET_BAD_PLAN);
    m.perm[0] = 0;
    EXPECT(compute(&m, &t, below) == BRACKET_BAD_SETTINGS && compute(&m, &t, long_run) == BRACKET_BAD_SETTINGS);
    EXPECT(t.columns[0] == 7 && m.z[1] == 5);
    for (size_t k = 0; k < BRACKET_ENDED; k++) EXPECT(t.ended[k] == 7 && t.counts[k] == 0);
    EXPECT(t.counts[BRACKET_COUNT_REFUSED] == 8);
}

/* Each list that the columns ask for, one item short. */
static void read_short_computing(void) {
    const float block[] = {1, 1, 1, 2};
    const struct settings s = {0, 5, 2};
    struct model m;
    struct table t;
    single(&m, &t, block, s);
    for (size_t k = 0; k < 5; k++) {
        const uint8_t refused = bracket_compute_columns(
            1, PATTERN(&m), LENT(m.blocks), PLAN(&m), LENT(m.values), true, LENT(m.preconditioner), 0, 5, 2, t.pinned,
            BRACKET_ROOM_PARTICLES(1) - (k == 1), 1, t.column_of, BRACKET_ROOM_PARTICLES(1) - (k == 2), t.columns,
            BRACKET_ROOM_COLUMNS(1, 1) - (k == 3), t.rhs, BRACKET_ROOM_VECTOR(1) - (k == 4), LENT(m.scratch), WORK(&m), t.counts, t.ended);
        EXPECT(refused == (k == 0 ? BRACKET_ACCEPTED : BRACKET_SHORT_BUFFER));
    }
    EXPECT(t.counts[BRACKET_COUNT_DIRECT] == 2 && t.counts[BRACKET_COUNT_REFUSED] == 4);
}

/* Three particles, the first one loaded, the last one pinned; the columns hold what a caller put there. */
static void fill(struct table *t) {
    begin(t, 3);
    t->pinned[2] = 1;
    EXPECT(bracket_load_particle(3, LENT(t->pinned), 0, 0, LENT(t->column_of), &t->loaded) == 0);
    for (size_t k = 0; k < 12; k++) t->columns[k] = (float)(k + 1);
}

static void read_combining(void) {
    const uint32_t particles[] = {2, 0, 1, 0}, outside[] = {0, 3}, many[17] = {0};
    const float along[] = {9, 9, 1, 0, 2, 0, 5, 5}, skipped[] = {9, 9, 1, -2, -0.0f, 0, 0, 0}, weights[34] = {0};
    struct table t;
    fill(&t);
    /* The first entry is pinned. A weight of zero is skipped, -0.0 too and NaN not; it still enters the gain. */
    EXPECT(combine(&t, 3, 1, particles, along) == 0 && t.how == BRACKET_NOTHING && t.gain == 0);
    EXPECT(same_floats(t.out, (const float[]){0, 0, 0, 0, 0, 0, 7}, 7));
    EXPECT(combine(&t, 3, 4, particles, skipped) == 0 && t.how == BRACKET_COMBINED && t.gain == 15);
    EXPECT(same_floats(t.out, (const float[]){-13, -14, -15, -16, -17, -18, 7}, 7));
    t.gain = 7;
    EXPECT(combine(&t, 3, 4, particles, along) == 0 && t.how == BRACKET_NOT_LOADED && t.gain == 0);
    EXPECT(same_floats(t.out, (const float[]){1, 2, 3, 4, 5, 6, 7}, 7));
    EXPECT(combine(&t, 3, 1, particles + 2, (const float[]){NAN, 0}) == 0 && t.how == BRACKET_NOT_LOADED && t.out[0] == 0);
    t.columns[6] = INFINITY;
    EXPECT(combine(&t, 3, 1, particles + 1, (const float[]){0, 1}) == 0 && t.how == BRACKET_COMBINED && t.gain == 0 && t.out[1] == 8);
    t.columns[6] = 7;
    t.out[0] = 1;
    t.how = 9;
    t.gain = 7;
    EXPECT(combine(&t, 1025, 1, particles, along) == BRACKET_TOO_MANY_PARTICLES);
    EXPECT(combine(&t, 3, 17, many, weights) == BRACKET_TOO_MANY_ENTRIES);
    EXPECT(combine(&t, 3, 2, outside, along) == BRACKET_OUT_OF_RANGE);
    t.column_of[1] = 0;
    EXPECT(combine(&t, 3, 1, particles, along) == BRACKET_BAD_PLAN);
    t.column_of[1] = U;
    EXPECT(t.out[0] == 1 && t.how == 9 && t.gain == 7);
    EXPECT(combine(&t, 3, 16, many, weights) == 0 && t.how == BRACKET_COMBINED && t.gain == 0);
    for (size_t k = 0; k < 7; k++) {
        const uint8_t refused = bracket_response_from_columns(
            3, t.pinned, 3 - (k == 1), 1, t.column_of, 3 - (k == 2), t.columns, BRACKET_ROOM_COLUMNS(3, 1) - (k == 3), 1, particles, 1 - (k == 4),
            along, 2 - (k == 5), t.out, BRACKET_ROOM_VECTOR(3) - (k == 6), &t.gain, &t.how);
        EXPECT(refused == (k == 0 ? BRACKET_ACCEPTED : BRACKET_SHORT_BUFFER));
    }
}

static void read_blocks(void) {
    const float zeros[12] = {0};
    struct table t;
    fill(&t);
    EXPECT(block_of(&t, 3, 1) == 0 && t.how == BRACKET_NOT_LOADED && same_floats(t.block, zeros, 4) && t.out[0] == 7);
    EXPECT(block_of(&t, 3, 0) == 0 && t.how == BRACKET_COMBINED);
    EXPECT(same_floats(t.out, t.columns, 13) && same_floats(t.block, (const float[]){1, 4.5f, 4.5f, 8}, 4));
    EXPECT(block_of(&t, 3, 2) == 0 && t.how == BRACKET_COMBINED);
    EXPECT(same_floats(t.block, zeros, 4) && same_floats(t.out, zeros, 12) && t.out[12] == 7);
    t.how = 9;
    t.out[0] = t.block[0] = 5;
    EXPECT(block_of(&t, 1025, 0) == BRACKET_TOO_MANY_PARTICLES);
    EXPECT(block_of(&t, 3, 3) == BRACKET_OUT_OF_RANGE && block_of(&t, 3, SIZE_MAX) == BRACKET_OUT_OF_RANGE);
    t.pinned[0] = 1;
    EXPECT(block_of(&t, 3, 2) == BRACKET_BAD_PLAN);
    t.pinned[0] = 0;
    for (size_t k = 0; k < 5; k++) {
        const uint8_t refused = bracket_particle_block_from_columns(
            3, t.pinned, 3 - (k == 0), 1, t.column_of, 3 - (k == 1), t.columns, BRACKET_ROOM_COLUMNS(3, 1) - (k == 2), 0, t.out,
            BRACKET_ROOM_PARTICLE_BLOCK(3) - (k == 3), &t.how, t.block);
        EXPECT(refused == (k == 4 ? BRACKET_ACCEPTED : BRACKET_SHORT_BUFFER));
        if (k < 4) EXPECT(t.how == 9 && t.out[0] == 5 && t.block[0] == 5);
    }
}

void read_columns(void) {
    read_clearing();
    read_loading();
    read_the_limit();
    read_the_need();
    read_the_columns();
    read_endings();
    read_two();
    read_the_order();
    read_refused_computing();
    read_short_computing();
    read_combining();
    read_blocks();
}
