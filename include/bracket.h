/*
 * The bracket solvers: the C functions of the proved crates `abi_calls`, `abi_step_calls` and `abi_columns_calls`.
 * Link with libbracket.a, which bindings/archive makes (README.md, "How to call it").
 *
 * WHAT A CALLER OWES. The proofs begin behind these points; all else is tested by the calls themselves.
 *  - A list is a pointer and the number of its items, named ..._len. The pointer is valid for that many items (to read,
 *    and to write where it isn't const) and aligned for its type. A list of length 0 may be null: no pairs, no particles, no
 *    entries, or a list that isn't needed. Any other is never null.
 *  - A list or place that a call may write shares no memory with any other argument. Lists that are only read may.
 *  - A pointer without a length is a place: one item, or seven for `counts`, six for `ended`, four for `block`. It is never null.
 *  - A bool is 0 or 1.
 * Any numbers, lengths and contents are answered then. The calls keep no state and use no heap, so calls on different
 * lists may run at the same time. A NaN's sign and payload are left open.
 *
 * WHAT IS ANSWERED. A uint8_t is 0 if the call was accepted, and else the refusal's number, the lowest that applies. A
 * refusal leaves every list and place as it was; the two exceptions (7 of bracket_plan, and the counts) are named below.
 * So look at the number first: a place tells nothing of a refused call, and 0 in `how` is a good end (BRACKET_FACTORED,
 * BRACKET_DIRECT, BRACKET_COMBINED). Who begins with zeros and drops the number takes a refusal for a solve.
 *
 * HOW A FUNCTION IS DESCRIBED. `reads` are lists that are only read, `writes` lists that are written, `work` lists that may hold
 * anything before the call and are zeros after an accepted one, `tells` places. Behind a list's name stands how many items it
 * needs. It may be longer; its rest is never touched. A shorter one is refusal 3.
 *
 * A VECTOR is two floats for each particle, x and y. A BLOCK is four: column 0's two, then column 1's two.
 *
 * A PATTERN is the number of particles n and three lists: row_offsets (n + 1), cols (one for each block) and diagonal (n).
 * Its block count B is row_offsets[n] as it stands. It is well formed when the row offsets begin at 0 and rise; the columns
 * rise strictly within a row and are below n; each row has its diagonal block, at the slot recorded in `diagonal`; and block
 * (r, c) is stored whenever (c, r) is.
 *
 * A PLAN is four lists: perm (n; position to particle), inv_perm (n; particle to position), first (2n; each row's first
 * column) and row_start (2n + 1; where each row begins in the factor). The factor's length L is row_start[2n] as it stands.
 * It fits a pattern when perm and inv_perm undo each other over 0 .. n - 1; both rows of position i have the same even first
 * column, at most 2i; the row starts begin at 0 and grow by row - first + 1; and every stored block on or below the diagonal
 * lies inside.
 */
#ifndef BRACKET_H
#define BRACKET_H

#include <stdbool.h>
#include <stddef.h>
#include <stdint.h>

#ifdef __cplusplus
extern "C" {
#endif

/* An answer that nobody looks at is a warning, where the compiler has one. */
#if defined(__cplusplus) && __cplusplus >= 201703L
#define BRACKET_MUST_USE [[nodiscard]]
#elif defined(__GNUC__)
#define BRACKET_MUST_USE __attribute__((warn_unused_result))
#else
#define BRACKET_MUST_USE
#endif

/* What a model may hold; more is refused, by the number behind it. */
#define BRACKET_MAX_PARTICLES 1024  /* 1 */
#define BRACKET_MAX_PAIRS 4096      /* 2 */
#define BRACKET_MAX_ENTRIES 16      /* 2, of a response */
#define BRACKET_MAX_COLUMNS 16      /* 2 of one loaded particle more; 6 of a count above */
#define BRACKET_MAX_ENVELOPE 16384  /* 7 */
#define BRACKET_MAX_ITERATIONS 4096 /* 8 */

/* From this sum of its counts on a tally stays. Add them up in 64 bits. */
#define BRACKET_TALLY_CAP 4000000000u

/*
 * How many items a list needs for n particles, their pairs and the loaded among them; constant if these are. Once a pattern is
 * built, cols needs B and blocks 4 B. Once it is planned, the factor's values need L, which is at most BRACKET_MAX_ENVELOPE.
 */
#define BRACKET_ROOM_PAIRS(pairs) (2 * (size_t)(pairs))                 /* pairs; building's work list */
#define BRACKET_ROOM_ROW_OFFSETS(n) ((size_t)(n) + 1)                   /* row_offsets */
#define BRACKET_ROOM_COLS(n, pairs) ((size_t)(n) + 2 * (size_t)(pairs)) /* cols, to build in */
#define BRACKET_ROOM_BLOCKS(n, pairs) (4 * BRACKET_ROOM_COLS(n, pairs)) /* blocks, to build in */
#define BRACKET_ROOM_PARTICLES(n) ((size_t)(n))                         /* diagonal, perm, inv_perm, pinned, marks, column_of; planning's work lists */
#define BRACKET_ROOM_VECTOR(n) (2 * (size_t)(n))                        /* b, x, out and every work list of floats; first */
#define BRACKET_ROOM_ROW_START(n) (2 * (size_t)(n) + 1)                 /* row_start */
#define BRACKET_ROOM_PRECONDITIONER(n) (4 * (size_t)(n))                /* preconditioner */
#define BRACKET_ROOM_COLUMNS(n, loaded) (4 * (size_t)(n) * (size_t)(loaded)) /* columns; BRACKET_MAX_COLUMNS loaded are the most */
#define BRACKET_ROOM_PARTICLE_BLOCK(n) (4 * (size_t)(n))                /* out of bracket_particle_block_from_columns */

/* A refusal's number, and when it is given. Each call below lists those that it can give. */
enum bracket_refusal {
    BRACKET_ACCEPTED = 0,
    BRACKET_TOO_MANY_PARTICLES = 1, /* more than 1,024 particles */
    BRACKET_TOO_MANY_ENTRIES = 2,   /* more than 4,096 pairs or 16 response entries, or one more loaded particle than 16 */
    BRACKET_SHORT_BUFFER = 3,       /* a lent buffer is shorter than the call needs */
    BRACKET_OUT_OF_RANGE = 4,       /* a pair of different numbers has one at n or above; or a row or particle asked for is */
    BRACKET_BAD_PATTERN = 5,        /* a pattern isn't well formed */
    BRACKET_BAD_PLAN = 6,           /* a plan doesn't fit its pattern; or a table of columns doesn't number unpinned particles
                                       0, 1, 2 up to its count, at most 16, each once */
    BRACKET_LONG_ENVELOPE = 7,      /* the envelope needs more than 16,384 entries */
    BRACKET_BAD_SETTINGS = 8        /* the tolerance isn't finite or is below zero, or more than 4,096 iterations */
};

/* How a factorization came out. */
enum bracket_factored {
    BRACKET_FACTORED = 0,     /* the factor is whole */
    BRACKET_FAILED = 1,       /* a pivot wasn't above zero, or was NaN */
    BRACKET_UNFACTORED = 2    /* bracket_factorize_step_matrix alone: 2n is above max_dense_dofs */
};

/* How a solve ended. */
enum bracket_outcome {
    BRACKET_DIRECT = 0,    /* step calls alone: by the factor */
    BRACKET_ZERO = 1,      /* b's squared length equals 0; x is zeros */
    BRACKET_NEAR = 2,      /* the first residual was within the threshold */
    BRACKET_CONVERGED = 3, /* the residual came within the threshold */
    BRACKET_CURVATURE = 4, /* a denominator wasn't above zero, or was NaN; x was rescaled */
    BRACKET_LIMIT = 5,     /* all iterations were made; x was rescaled */
    BRACKET_NOTHING = 6    /* bracket_response_into and bracket_response_from_columns alone: no entry was left */
};

/* How a combination of columns came out, if it isn't BRACKET_NOTHING; a particle's block is one of these two. */
enum bracket_combined {
    BRACKET_COMBINED = 0,  /* from the columns as they stand */
    BRACKET_NOT_LOADED = 7 /* a particle isn't loaded; there is no gain and no block */
};

/* The tally's seven counts, by their place in `counts`. */
enum bracket_count {
    BRACKET_COUNT_DIRECT,
    BRACKET_COUNT_ZERO,
    BRACKET_COUNT_NEAR,
    BRACKET_COUNT_CONVERGED,
    BRACKET_COUNT_CURVATURE,
    BRACKET_COUNT_LIMIT,
    BRACKET_COUNT_REFUSED,
    BRACKET_COUNTS
};

/* How many of them are in `ended`, by the same places: all but the refused. */
#define BRACKET_ENDED 6

/* What bracket_block_index and bracket_row_slot find where no block is stored, and bracket_row_col past a row's end. */
#define BRACKET_ABSENT UINT32_MAX

/* What column_of holds for a particle that isn't loaded. */
#define BRACKET_UNLOADED 4294967295u

/* ---- The numbers in words, never null: for a message, or a log. A number that isn't one of the enum's has words too. ---- */

/* Of a call's answer. 9 is given by the bench program alone. */
static inline const char *bracket_refusal_text(uint8_t refusal) {
    switch (refusal) {
    case BRACKET_ACCEPTED: return "accepted";
    case BRACKET_TOO_MANY_PARTICLES: return "more than 1,024 particles";
    case BRACKET_TOO_MANY_ENTRIES: return "more than 4,096 pairs or 16 response entries, or one more loaded particle than 16";
    case BRACKET_SHORT_BUFFER: return "a lent buffer is shorter than the call needs";
    case BRACKET_OUT_OF_RANGE: return "a pair of different numbers has one at n or above; or a row or particle asked for is at n or above";
    case BRACKET_BAD_PATTERN: return "a pattern isn't well formed";
    case BRACKET_BAD_PLAN:
        return "a plan doesn't fit its pattern; or a table of columns doesn't number unpinned particles 0, 1, 2 up to its count, at most 16, each once";
    case BRACKET_LONG_ENVELOPE: return "the envelope needs more than 16,384 entries";
    case BRACKET_BAD_SETTINGS: return "the tolerance isn't finite and at least zero, or more than 4,096 iterations";
    case 9: return "program text isn't as described";
    default: return "no refusal has this number";
    }
}

/* Of what a factorization wrote to *how. */
static inline const char *bracket_factored_text(uint32_t how) {
    switch (how) {
    case BRACKET_FACTORED: return "factored";
    case BRACKET_FAILED: return "failed: a pivot wasn't above zero, or was NaN";
    case BRACKET_UNFACTORED: return "not tried: 2n is above max_dense_dofs";
    default: return "no factorization comes out by this number";
    }
}

/* Of what a solve wrote to *how. What wasn't solved says so. */
static inline const char *bracket_outcome_text(uint32_t how) {
    switch (how) {
    case BRACKET_DIRECT: return "solved by the factor";
    case BRACKET_ZERO: return "solved: b's squared length is 0, and x is zeros";
    case BRACKET_NEAR: return "solved: the first residual was within the threshold";
    case BRACKET_CONVERGED: return "solved: the residual came within the threshold";
    case BRACKET_CURVATURE: return "not solved: a denominator wasn't above zero, or was NaN; x was rescaled";
    case BRACKET_LIMIT: return "not solved: all iterations were made; x was rescaled";
    case BRACKET_NOTHING: return "nothing to solve: no entry was left";
    default: return "no solve ends by this number";
    }
}

/* Of what bracket_response_from_columns and bracket_particle_block_from_columns wrote to *how. */
static inline const char *bracket_combined_text(uint32_t how) {
    switch (how) {
    case BRACKET_COMBINED: return "combined from the columns as they stand";
    case BRACKET_NOTHING: return "nothing to combine: no entry was left";
    case BRACKET_NOT_LOADED: return "not combined: a particle isn't loaded";
    default: return "no combination comes out by this number";
    }
}

/* ---- Plane numbers. Every operation is rounded on its own, none is fused. ---- */

/* The square root, correctly rounded. A zero's is that zero, +infinity's is +infinity, NaN's and that of a number below zero NaN. */
BRACKET_MUST_USE float bracket_root(float x);

/* ux * vx + uy * vy. */
BRACKET_MUST_USE float bracket_dot(float ux, float uy, float vx, float vy);

/* c0x * c1y - c1x * c0y. */
BRACKET_MUST_USE float bracket_determinant(float c0x, float c0y, float c1x, float c1y);

/*
 * The block times the vector (vx, vy).
 *   writes    out 2
 *   refuses   3 a list is short
 *   accepted  out's first 2 floats are the product
 *   refused   out is as it was
 */
BRACKET_MUST_USE uint8_t bracket_times(float c0x, float c0y, float c1x, float c1y, float vx, float vy, float *out, size_t out_len);

/*
 * The block's inverse, by the reciprocal of its determinant, whatever that is.
 *   writes    out 4
 *   refuses   3 a list is short
 *   accepted  out's first 4 floats are the inverse
 *   refused   out is as it was
 */
BRACKET_MUST_USE uint8_t bracket_inverse(float c0x, float c0y, float c1x, float c1y, float *out, size_t out_len);

/* ---- The block matrix ---- */

/*
 * Builds the pattern of n particles with a block for each particle and two for each pair, and zeroed values. `pairs` holds
 * count pairs, two numbers each, in either order; repeats and equal pairs add nothing, even an equal pair at n or above.
 *   reads     pairs 2 count
 *   writes    row_offsets n + 1, cols n + 2 count, diagonal n, blocks 4 (n + 2 count)
 *   work      work 2 count
 *   refuses   1 n is above 1,024; 2 count is above 4,096; 3 a list is short; 4 a pair of different numbers has one at n or above
 *   accepted  row_offsets, cols and diagonal are the pattern's, the block count is row_offsets[n], and cols from there to
 *             n + 2 count are zeros; blocks are zeros, all 4 (n + 2 count)
 *   refused   every list is as it was
 */
BRACKET_MUST_USE uint8_t bracket_from_pairs(
    size_t n, size_t count,
    const uint32_t *pairs, size_t pairs_len,
    uint32_t *row_offsets, size_t row_offsets_len,
    uint32_t *cols, size_t cols_len,
    uint32_t *diagonal, size_t diagonal_len,
    float *blocks, size_t blocks_len,
    uint32_t *work, size_t work_len);

/*
 * Builds the same pattern without values.
 *   reads     pairs 2 count
 *   writes    row_offsets n + 1, cols n + 2 count, diagonal n
 *   work      work 2 count
 *   refuses   1 n is above 1,024; 2 count is above 4,096; 3 a list is short; 4 a pair of different numbers has one at n or above
 *   accepted  row_offsets, cols and diagonal are the pattern's, the block count is row_offsets[n], and cols from there to
 *             n + 2 count are zeros
 *   refused   every list is as it was
 */
BRACKET_MUST_USE uint8_t bracket_pattern_from_pairs(
    size_t n, size_t count,
    const uint32_t *pairs, size_t pairs_len,
    uint32_t *row_offsets, size_t row_offsets_len,
    uint32_t *cols, size_t cols_len,
    uint32_t *diagonal, size_t diagonal_len,
    uint32_t *work, size_t work_len);

/*
 * The slot of block (row, col). The block's values are the 4 floats of blocks at 4 slot.
 *   reads     row_offsets n + 1, cols B, diagonal n
 *   tells     slot
 *   refuses   1 n is above 1,024; 3 a list is short; 4 row is at n or above; 5 the pattern isn't well formed
 *   accepted  *slot is the slot, or BRACKET_ABSENT, for any col
 *   refused   *slot is as it was
 */
BRACKET_MUST_USE uint8_t bracket_block_index(
    size_t n,
    const uint32_t *row_offsets, size_t row_offsets_len,
    const uint32_t *cols, size_t cols_len,
    const uint32_t *diagonal, size_t diagonal_len,
    size_t row, uint32_t col, uint32_t *slot);

/*
 * The slot of row's diagonal block.
 *   reads     row_offsets n + 1, cols B, diagonal n
 *   tells     slot
 *   refuses   1 n is above 1,024; 3 a list is short; 4 row is at n or above; 5 the pattern isn't well formed
 *   accepted  *slot is the slot
 *   refused   *slot is as it was
 */
BRACKET_MUST_USE uint8_t bracket_diagonal_index(
    size_t n,
    const uint32_t *row_offsets, size_t row_offsets_len,
    const uint32_t *cols, size_t cols_len,
    const uint32_t *diagonal, size_t diagonal_len,
    size_t row, uint32_t *slot);

/*
 * One row of a pattern: the slot of its first block, how many blocks it has, and the column of its j-th block, whose slot is the
 * first one's and j more. No diagonal is handed and one row is read, so that no pattern is refused by 5.
 *   reads     row_offsets n + 1, cols B
 *   tells     first, len or col
 *   refuses   1 n is above 1,024; 3 a list is short; 4 row is at n or above
 *   accepted  *first, *len or *col is written. A row whose bounds fall, or whose end passes B, has first slot 0 and no block. The
 *             column is BRACKET_ABSENT past the row's end. What stands past n + 1 row offsets and B columns is never shown
 *   refused   *first, *len or *col is as it was
 */
BRACKET_MUST_USE uint8_t bracket_row_first(
    size_t n,
    const uint32_t *row_offsets, size_t row_offsets_len,
    const uint32_t *cols, size_t cols_len,
    size_t row, size_t *first);
BRACKET_MUST_USE uint8_t bracket_row_len(
    size_t n,
    const uint32_t *row_offsets, size_t row_offsets_len,
    const uint32_t *cols, size_t cols_len,
    size_t row, size_t *len);
BRACKET_MUST_USE uint8_t bracket_row_col(
    size_t n,
    const uint32_t *row_offsets, size_t row_offsets_len,
    const uint32_t *cols, size_t cols_len,
    size_t row, size_t j, uint32_t *col);

/*
 * The slot of row's block with the column col. bracket_block_index tests the whole pattern, this one the row's bounds alone: for
 * slots in a loop over a pattern that is known to be good.
 *   reads     row_offsets n + 1, cols B; no diagonal, so 5 isn't given
 *   tells     slot
 *   refuses   1 n is above 1,024; 3 a list is short; 4 row is at n or above
 *   accepted  *slot is the slot, or BRACKET_ABSENT, for any col. Over a well formed pattern it is bracket_block_index's; of a row
 *             whose columns don't rise it is a slot that has the column, or BRACKET_ABSENT though one may have it. A row whose
 *             bounds fall, or whose end passes B, has no block. What stands past n + 1 row offsets and B columns is never read
 *   refused   *slot is as it was
 */
BRACKET_MUST_USE uint8_t bracket_row_slot(
    size_t n,
    const uint32_t *row_offsets, size_t row_offsets_len,
    const uint32_t *cols, size_t cols_len,
    size_t row, uint32_t col, uint32_t *slot);

/*
 * Zeroes every block.
 *   reads     row_offsets n + 1, cols B, diagonal n
 *   writes    blocks 4 B
 *   refuses   1 n is above 1,024; 3 a list is short; 5 the pattern isn't well formed
 *   accepted  blocks' first 4 B floats are zeros
 *   refused   blocks are as they were
 */
BRACKET_MUST_USE uint8_t bracket_clear_values(
    size_t n,
    const uint32_t *row_offsets, size_t row_offsets_len,
    const uint32_t *cols, size_t cols_len,
    const uint32_t *diagonal, size_t diagonal_len,
    float *blocks, size_t blocks_len);

/*
 * out = A x.
 *   reads     row_offsets n + 1, cols B, diagonal n, blocks 4 B, x 2n
 *   writes    out 2n
 *   refuses   1 n is above 1,024; 3 a list is short; 5 the pattern isn't well formed
 *   accepted  out's first 2n floats are the product, each row summed slot by slot from +0.0
 *   refused   out is as it was
 */
BRACKET_MUST_USE uint8_t bracket_mul(
    size_t n,
    const uint32_t *row_offsets, size_t row_offsets_len,
    const uint32_t *cols, size_t cols_len,
    const uint32_t *diagonal, size_t diagonal_len,
    const float *blocks, size_t blocks_len,
    const float *x, size_t x_len,
    float *out, size_t out_len);

/*
 * Pins a particle: the identity at row's diagonal, zeros in the rest of the row and in its mirrors.
 *   reads     row_offsets n + 1, cols B, diagonal n
 *   writes    blocks 4 B
 *   refuses   1 n is above 1,024; 3 a list is short; 4 row is at n or above; 5 the pattern isn't well formed
 *   accepted  those blocks alone are written
 *   refused   blocks are as they were
 */
BRACKET_MUST_USE uint8_t bracket_make_dirichlet(
    size_t n,
    const uint32_t *row_offsets, size_t row_offsets_len,
    const uint32_t *cols, size_t cols_len,
    const uint32_t *diagonal, size_t diagonal_len,
    size_t row,
    float *blocks, size_t blocks_len);

/*
 * Pins every marked particle, as bracket_make_dirichlet does one after the other. A mark is a byte, zero if the particle is free.
 *   reads     row_offsets n + 1, cols B, diagonal n, marks n
 *   writes    blocks 4 B
 *   refuses   1 n is above 1,024; 3 a list is short; 5 the pattern isn't well formed
 *   accepted  a marked row's diagonal block is the identity, any other block in a marked row or column is zeros; those blocks
 *             alone are written
 *   refused   blocks are as they were
 */
BRACKET_MUST_USE uint8_t bracket_make_dirichlet_marked(
    size_t n,
    const uint32_t *row_offsets, size_t row_offsets_len,
    const uint32_t *cols, size_t cols_len,
    const uint32_t *diagonal, size_t diagonal_len,
    const uint8_t *marks, size_t marks_len,
    float *blocks, size_t blocks_len);

/* ---- The direct solver ---- */

/*
 * Plans the factor: the reverse Cuthill-McKee order and the envelope under it.
 *   reads     row_offsets n + 1, cols B, diagonal n
 *   writes    perm n, inv_perm n, first 2n, row_start 2n + 1
 *   work      degrees n, placed n, mark n, level n, queue n
 *   refuses   1 n is above 1,024; 3 a list is short; 5 the pattern isn't well formed; 7 the envelope needs more than 16,384 entries
 *   accepted  the four lists are the plan; it fits the pattern, and row_start[2n] is the envelope's length
 *   refused   every list is as it was, but that 7 leaves the work lists' first n places zeros
 */
BRACKET_MUST_USE uint8_t bracket_plan(
    size_t n,
    const uint32_t *row_offsets, size_t row_offsets_len,
    const uint32_t *cols, size_t cols_len,
    const uint32_t *diagonal, size_t diagonal_len,
    uint32_t *perm, size_t perm_len,
    uint32_t *inv_perm, size_t inv_perm_len,
    uint32_t *first, size_t first_len,
    uint32_t *row_start, size_t row_start_len,
    uint32_t *degrees, size_t degrees_len,
    uint32_t *placed, size_t placed_len,
    uint32_t *mark, size_t mark_len,
    uint32_t *level, size_t level_len,
    uint32_t *queue, size_t queue_len);

/*
 * The Cholesky factor of the matrix in the plan's order.
 *   reads     row_offsets n + 1, cols B, diagonal n, blocks 4 B, perm n, inv_perm n, first 2n, row_start 2n + 1
 *   writes    values L
 *   tells     how, row, pivot
 *   refuses   1 n is above 1,024; 3 a list is short; 5 the pattern isn't well formed; 6 the plan doesn't fit it; 7 L is above 16,384
 *   accepted  values' first L floats are the factor, row by row; *how is BRACKET_FACTORED, *row and *pivot are as they were. Or
 *             *how is BRACKET_FAILED, and *row and *pivot tell the row and the pivot that ended it; then the rows before are
 *             finished, that row is but for its diagonal, and that and the later rows are as loaded
 *   refused   values and the three places are as they were
 */
BRACKET_MUST_USE uint8_t bracket_factorize(
    size_t n,
    const uint32_t *row_offsets, size_t row_offsets_len,
    const uint32_t *cols, size_t cols_len,
    const uint32_t *diagonal, size_t diagonal_len,
    const float *blocks, size_t blocks_len,
    const uint32_t *perm, size_t perm_len,
    const uint32_t *inv_perm, size_t inv_perm_len,
    const uint32_t *first, size_t first_len,
    const uint32_t *row_start, size_t row_start_len,
    float *values, size_t values_len,
    uint32_t *how, size_t *row, float *pivot);

/*
 * Solves A x = b by the values as they stand, which are A's factor only if bracket_factorize told BRACKET_FACTORED.
 *   reads     perm n, inv_perm n, first 2n, row_start 2n + 1, values L, b 2n
 *   writes    x 2n
 *   work      scratch 2n
 *   refuses   1 n is above 1,024; 3 a list is short; 6 the plan breaks one of its rules that ask for no pattern; 7 L is above 16,384
 *   accepted  x's first 2n floats are the solution
 *   refused   every list is as it was
 */
BRACKET_MUST_USE uint8_t bracket_solve(
    size_t n,
    const uint32_t *perm, size_t perm_len,
    const uint32_t *inv_perm, size_t inv_perm_len,
    const uint32_t *first, size_t first_len,
    const uint32_t *row_start, size_t row_start_len,
    const float *values, size_t values_len,
    const float *b, size_t b_len,
    float *x, size_t x_len,
    float *scratch, size_t scratch_len);

/* ---- The conjugate gradient ---- */

/*
 * The preconditioner: each diagonal block's inverse, or the identity if an entry of that isn't finite. Call it after every
 * change of the matrix.
 *   reads     row_offsets n + 1, cols B, diagonal n, blocks 4 B
 *   writes    preconditioner 4n
 *   refuses   1 n is above 1,024; 3 a list is short; 5 the pattern isn't well formed
 *   accepted  preconditioner's first 4n floats are those blocks
 *   refused   the preconditioner is as it was
 */
BRACKET_MUST_USE uint8_t bracket_update_preconditioner(
    size_t n,
    const uint32_t *row_offsets, size_t row_offsets_len,
    const uint32_t *cols, size_t cols_len,
    const uint32_t *diagonal, size_t diagonal_len,
    const float *blocks, size_t blocks_len,
    float *preconditioner, size_t preconditioner_len);

/*
 * Solves A x = b from the guess in x, until the residual's length is at most the tolerance times b's.
 *   reads     row_offsets n + 1, cols B, diagonal n, blocks 4 B, preconditioner 4n, b 2n
 *   writes    x 2n
 *   work      residual 2n, direction 2n, a_direction 2n, z 2n
 *   tells     how, count, residual_squared, denominator
 *   refuses   1 n is above 1,024; 3 a list is short; 5 the pattern isn't well formed; 8 the tolerance isn't finite or is below
 *             zero, or max_iterations is above 4,096
 *   accepted  x's first 2n floats are what the solve came to; *how is BRACKET_ZERO to BRACKET_LIMIT, *count the iterations made,
 *             *residual_squared the running residual's squared length (+0.0 for BRACKET_ZERO), *denominator that of
 *             BRACKET_CURVATURE (+0.0 for the others)
 *   refused   every list and place is as it was
 */
BRACKET_MUST_USE uint8_t bracket_conjugate_gradient(
    size_t n,
    const uint32_t *row_offsets, size_t row_offsets_len,
    const uint32_t *cols, size_t cols_len,
    const uint32_t *diagonal, size_t diagonal_len,
    const float *blocks, size_t blocks_len,
    const float *preconditioner, size_t preconditioner_len,
    const float *b, size_t b_len,
    float tolerance, size_t max_iterations,
    float *x, size_t x_len,
    float *residual, size_t residual_len,
    float *direction, size_t direction_len,
    float *a_direction, size_t a_direction_len,
    float *z, size_t z_len,
    uint32_t *how, size_t *count, float *residual_squared, float *denominator);

/*
 * ---- The step: the factor where it pays, the conjugate gradient elsewhere ----
 *
 * A step is dense where 2n is at most max_dense_dofs. Lists marked 'if dense' are needed only there, and there on either route;
 * elsewhere they are neither tested, read nor written, and may be empty, and so null.
 */

/*
 * Factors the step's matrix, and updates the preconditioner if there is no whole factor.
 *   reads     row_offsets n + 1, cols B, diagonal n, blocks 4 B; if dense perm n, inv_perm n, first 2n, row_start 2n + 1
 *   writes    preconditioner 4n; if dense values L
 *   tells     how, row, pivot
 *   refuses   1 n is above 1,024; 3 a list is short; 5 the pattern isn't well formed; if dense 6 the plan doesn't fit it and 7 L
 *             is above 16,384
 *   accepted  *how is BRACKET_FACTORED: values' first L floats are the factor, the preconditioner is as it was. BRACKET_FAILED:
 *             values, *row and *pivot are as bracket_factorize leaves them after a failure, the preconditioner's first 4n floats
 *             are those of bracket_update_preconditioner. BRACKET_UNFACTORED, if not dense: values are as they were, the
 *             preconditioner is updated likewise. But for a failure *row and *pivot are as they were
 *   refused   both lists and the three places are as they were
 */
BRACKET_MUST_USE uint8_t bracket_factorize_step_matrix(
    size_t n,
    const uint32_t *row_offsets, size_t row_offsets_len,
    const uint32_t *cols, size_t cols_len,
    const uint32_t *diagonal, size_t diagonal_len,
    const float *blocks, size_t blocks_len,
    const uint32_t *perm, size_t perm_len,
    const uint32_t *inv_perm, size_t inv_perm_len,
    const uint32_t *first, size_t first_len,
    const uint32_t *row_start, size_t row_start_len,
    size_t max_dense_dofs,
    float *values, size_t values_len,
    float *preconditioner, size_t preconditioner_len,
    uint32_t *how, size_t *row, float *pivot);

/*
 * Solves A x = b by the factor if the step is dense and `factored` is true; otherwise x is zeroed and iterated. `factored`,
 * values and preconditioner are taken as they stand: hand over whether bracket_factorize_step_matrix told BRACKET_FACTORED, and
 * what it left.
 *   reads     row_offsets n + 1, cols B, diagonal n, blocks 4 B, preconditioner 4n, b 2n; if dense perm n, inv_perm n, first 2n,
 *             row_start 2n + 1, values L
 *   writes    x 2n
 *   work      residual 2n, direction 2n, a_direction 2n, z 2n; if dense scratch 2n
 *   tells     counts, how, count, residual_squared, denominator
 *   refuses   1 n is above 1,024; 3 a list is short; 5 the pattern isn't well formed; if dense 6 the plan doesn't fit it and 7 L
 *             is above 16,384; 8 the tolerance isn't finite or is below zero, or max_iterations is above 4,096, on either route
 *   accepted  x's first 2n floats are the solution, or what the iteration came to. *how is BRACKET_DIRECT, *count 0 and
 *             *residual_squared and *denominator +0.0; or *how is BRACKET_ZERO to BRACKET_LIMIT, *count the iterations made,
 *             *residual_squared the running residual's squared length (+0.0 for BRACKET_ZERO), *denominator that of
 *             BRACKET_CURVATURE (+0.0 for the others). The count of what happened is one more
 *   refused   every list and the four places behind the counts are as they were. The count of refused calls is one more
 * The counts stay where the seven already add up to BRACKET_TALLY_CAP or more. Begin with seven zeros.
 */
BRACKET_MUST_USE uint8_t bracket_solve_step(
    size_t n,
    const uint32_t *row_offsets, size_t row_offsets_len,
    const uint32_t *cols, size_t cols_len,
    const uint32_t *diagonal, size_t diagonal_len,
    const float *blocks, size_t blocks_len,
    const uint32_t *perm, size_t perm_len,
    const uint32_t *inv_perm, size_t inv_perm_len,
    const uint32_t *first, size_t first_len,
    const uint32_t *row_start, size_t row_start_len,
    const float *values, size_t values_len,
    bool factored,
    const float *preconditioner, size_t preconditioner_len,
    const float *b, size_t b_len,
    float tolerance, size_t max_iterations, size_t max_dense_dofs,
    float *x, size_t x_len,
    float *scratch, size_t scratch_len,
    float *residual, size_t residual_len,
    float *direction, size_t direction_len,
    float *a_direction, size_t a_direction_len,
    float *z, size_t z_len,
    uint32_t counts[BRACKET_COUNTS],
    uint32_t *how, size_t *count, float *residual_squared, float *denominator);

/*
 * The answer to a constraint: the gradients of its unpinned entries, added up for each particle, are the right-hand side of
 * a step solve into `out`, and the gain is their product with it. `pinned` has a byte for each particle, zero if it is free;
 * entry e is particle particles[e] with the gradient at 2e. `factored`, values and preconditioner are taken as they stand, and
 * the solve is by the factor if the step is dense and `factored` is true.
 *   reads     row_offsets n + 1, cols B, diagonal n, blocks 4 B, preconditioner 4n, pinned n, particles `entries`, gradients
 *             2 `entries`; if dense perm n, inv_perm n, first 2n, row_start 2n + 1, values L
 *   writes    out 2n
 *   work      rhs 2n, residual 2n, direction 2n, a_direction 2n, z 2n; if dense scratch 2n
 *   tells     counts, gain, how, count, residual_squared, denominator
 *   refuses   1 n is above 1,024; 2 entries is above 16; 3 a list is short; 4 an entry's particle is at n or above, pinned or
 *             not; 5 the pattern isn't well formed; if dense 6 the plan doesn't fit it and 7 L is above 16,384; 8 the tolerance
 *             isn't finite or is below zero, or max_iterations is above 4,096, on either route
 *   accepted  out's first 2n floats are the solution, or what the iteration came to; *gain is the gain, +0.0 if it isn't above
 *             zero or is NaN. *how is BRACKET_DIRECT, *count 0 and *residual_squared and *denominator +0.0; or *how is
 *             BRACKET_ZERO to BRACKET_LIMIT, *count the iterations made, *residual_squared the running residual's squared length
 *             (+0.0 for BRACKET_ZERO), *denominator that of BRACKET_CURVATURE (+0.0 for the others). The count of what happened
 *             is one more. If no entry is left, out is zeros, *how BRACKET_NOTHING, *count 0, *gain, *residual_squared and
 *             *denominator +0.0, and the counts are as they were
 *   refused   every list and the five places behind the counts are as they were. The count of refused calls is one more
 * The counts stay where the seven already add up to BRACKET_TALLY_CAP or more. Begin with seven zeros.
 */
BRACKET_MUST_USE uint8_t bracket_response_into(
    size_t n,
    const uint32_t *row_offsets, size_t row_offsets_len,
    const uint32_t *cols, size_t cols_len,
    const uint32_t *diagonal, size_t diagonal_len,
    const float *blocks, size_t blocks_len,
    const uint32_t *perm, size_t perm_len,
    const uint32_t *inv_perm, size_t inv_perm_len,
    const uint32_t *first, size_t first_len,
    const uint32_t *row_start, size_t row_start_len,
    const float *values, size_t values_len,
    bool factored,
    const float *preconditioner, size_t preconditioner_len,
    float tolerance, size_t max_iterations, size_t max_dense_dofs,
    const uint8_t *pinned, size_t pinned_len,
    size_t entries,
    const uint32_t *particles, size_t particles_len,
    const float *gradients, size_t gradients_len,
    float *out, size_t out_len,
    float *rhs, size_t rhs_len,
    float *scratch, size_t scratch_len,
    float *residual, size_t residual_len,
    float *direction, size_t direction_len,
    float *a_direction, size_t a_direction_len,
    float *z, size_t z_len,
    uint32_t counts[BRACKET_COUNTS],
    float *gain, uint32_t *how, size_t *count, float *residual_squared, float *denominator);

/*
 * ---- Columns: the two axis responses of a particle, solved once and combined for any number of constraints ----
 *
 * A TABLE OF COLUMNS is column_of (n; the number of each particle's column, or BRACKET_UNLOADED) and the count of loaded particles,
 * which the caller keeps: it goes in as `loaded` and comes back in *loaded_after. It is in order when it numbers unpinned particles
 * 0, 1, 2 up to its count, each once, and the count is at most 16; a particle that is pinned after it was loaded breaks it. Places of
 * column_of past n aren't looked at.
 *
 * THE COLUMNS are two vectors for each loaded particle: axis k of column c is the 2n floats of `columns` at 2 (2c + k) n. The need
 * of 4 n loaded floats is a whole number that doesn't wrap, whatever `loaded` is, and all of them are needed, used or not.
 *
 * COLUMNS ARE READ AS THEY STAND. There is no mark for 'computed': after clearing and loading anew, after a change of the matrix, or
 * with anything else in the list, a combination uses what it holds. A column from a run that broke down looks like a good one; it is
 * seen in `ended` of bracket_compute_columns, and nowhere later. bracket_compute_columns alone counts: a refused load, combination or
 * block is counted nowhere.
 */

/*
 * No particle is loaded: what a table begins with. Neither what it held nor a count is looked at.
 *   writes    column_of n
 *   tells     loaded_after
 *   refuses   1 n is above 1,024; 3 a list is short
 *   accepted  column_of's first n numbers are BRACKET_UNLOADED, *loaded_after is 0
 *   refused   column_of and *loaded_after are as they were
 */
BRACKET_MUST_USE uint8_t bracket_clear_columns(
    size_t n,
    uint32_t *column_of, size_t column_of_len,
    size_t *loaded_after);

/*
 * Loads a particle: a new one that isn't pinned has the next number. Loading a pinned one, or one twice, changes nothing. `pinned`
 * has a byte for each particle, zero if it is free.
 *   reads     pinned n
 *   writes    column_of n
 *   tells     loaded_after
 *   refuses   1 n is above 1,024; 2 the particle is below n, both lists have its place and show it new and unpinned, and loaded is
 *             16 or more; 3 a list is short; 4 particle is at n or above; 6 the table of columns isn't in order
 *   accepted  column_of[particle] is `loaded` and *loaded_after is one more; or the particle is pinned or was loaded, column_of is
 *             as it was and *loaded_after is `loaded`
 *   refused   column_of and *loaded_after are as they were
 */
BRACKET_MUST_USE uint8_t bracket_load_particle(
    size_t n,
    const uint8_t *pinned, size_t pinned_len,
    size_t loaded, size_t particle,
    uint32_t *column_of, size_t column_of_len,
    size_t *loaded_after);

/*
 * Solves the columns of every loaded particle: a column is what bracket_response_into leaves in `out` for one entry, the particle
 * with a gradient of 1 along the axis. The solves run by particle, ascending, axis 0 before axis 1, whatever the columns' numbers are.
 * `factored`, values and preconditioner are taken as they stand, and a solve is by the factor if the step is dense and `factored` is
 * true.
 *   reads     row_offsets n + 1, cols B, diagonal n, blocks 4 B, preconditioner 4n, pinned n, column_of n; if dense perm n,
 *             inv_perm n, first 2n, row_start 2n + 1, values L
 *   writes    columns 4 n `loaded`
 *   work      rhs 2n, residual 2n, direction 2n, a_direction 2n, z 2n; if dense scratch 2n
 *   tells     counts, ended
 *   refuses   1 n is above 1,024; 3 a list is short; 5 the pattern isn't well formed; 6 the table of columns isn't in order, on
 *             either route, or if dense the plan doesn't fit the pattern; if dense 7 L is above 16,384; 8 the tolerance isn't finite
 *             or is below zero, or max_iterations is above 4,096, on either route
 *   accepted  columns' first 4 n `loaded` floats are the columns. ended[k] is how many of the 2 `loaded` solves ended in the way of
 *             counts[k], and those counts are as many more. If none is loaded, `ended` is zeros and the counts are as they were
 *   refused   every list and `ended` are as they were. The count of refused calls is one more
 * The counts stay where the seven already add up to BRACKET_TALLY_CAP or more. Begin with seven zeros. Where
 * ended[BRACKET_COUNT_CURVATURE] or ended[BRACKET_COUNT_LIMIT] isn't 0, so many columns are no solutions: what is combined from
 * them is none either.
 */
BRACKET_MUST_USE uint8_t bracket_compute_columns(
    size_t n,
    const uint32_t *row_offsets, size_t row_offsets_len,
    const uint32_t *cols, size_t cols_len,
    const uint32_t *diagonal, size_t diagonal_len,
    const float *blocks, size_t blocks_len,
    const uint32_t *perm, size_t perm_len,
    const uint32_t *inv_perm, size_t inv_perm_len,
    const uint32_t *first, size_t first_len,
    const uint32_t *row_start, size_t row_start_len,
    const float *values, size_t values_len,
    bool factored,
    const float *preconditioner, size_t preconditioner_len,
    float tolerance, size_t max_iterations, size_t max_dense_dofs,
    const uint8_t *pinned, size_t pinned_len,
    size_t loaded,
    const uint32_t *column_of, size_t column_of_len,
    float *columns, size_t columns_len,
    float *rhs, size_t rhs_len,
    float *scratch, size_t scratch_len,
    float *residual, size_t residual_len,
    float *direction, size_t direction_len,
    float *a_direction, size_t a_direction_len,
    float *z, size_t z_len,
    uint32_t counts[BRACKET_COUNTS], uint32_t ended[BRACKET_ENDED]);

/*
 * The answer to a constraint without a solve: the columns of its unpinned entries, each times its gradient's number along the
 * column's axis, added up in `out`, and the gain. A number that equals 0 is skipped before its column is looked for, so that a
 * particle that isn't loaded does no harm with a gradient of zeros. Entry e is particle particles[e] with the gradient at 2e.
 *   reads     pinned n, column_of n, columns 4 n `loaded`, particles `entries`, gradients 2 `entries`
 *   writes    out 2n
 *   tells     gain, how
 *   refuses   1 n is above 1,024; 2 entries is above 16; 3 a list is short; 4 an entry's particle is at n or above, pinned or not;
 *             6 the table of columns isn't in order
 *   accepted  *how is BRACKET_COMBINED: out's first 2n floats are the sum, and *gain is the product of all unpinned entries'
 *             gradients with it, +0.0 if that isn't above zero or is NaN. BRACKET_NOTHING, no entry is left: out is zeros, *gain
 *             +0.0. BRACKET_NOT_LOADED: out has what was added up before the first particle that isn't loaded, and *gain is +0.0;
 *             load it, or ask bracket_response_into
 *   refused   out, *gain and *how are as they were
 */
BRACKET_MUST_USE uint8_t bracket_response_from_columns(
    size_t n,
    const uint8_t *pinned, size_t pinned_len,
    size_t loaded,
    const uint32_t *column_of, size_t column_of_len,
    const float *columns, size_t columns_len,
    size_t entries,
    const uint32_t *particles, size_t particles_len,
    const float *gradients, size_t gradients_len,
    float *out, size_t out_len,
    float *gain, uint32_t *how);

/*
 * Both columns of a particle, and the block of their values at the particle, M, made symmetric: (M + its transpose) 0.5.
 *   reads     pinned n, column_of n, columns 4 n `loaded`
 *   writes    out 4n
 *   tells     how, block
 *   refuses   1 n is above 1,024; 3 a list is short; 4 particle is at n or above; 6 the table of columns isn't in order
 *   accepted  *how is BRACKET_COMBINED: out's first 2n floats are the column of axis 0, the next 2n that of axis 1, and `block` is
 *             the block; of a pinned particle all are zeros. BRACKET_NOT_LOADED: out is as it was, and `block` is zeros
 *   refused   out, *how and `block` are as they were
 */
BRACKET_MUST_USE uint8_t bracket_particle_block_from_columns(
    size_t n,
    const uint8_t *pinned, size_t pinned_len,
    size_t loaded,
    const uint32_t *column_of, size_t column_of_len,
    const float *columns, size_t columns_len,
    size_t particle,
    float *out, size_t out_len,
    uint32_t *how, float block[4]);

#ifdef __cplusplus
}
#endif

#endif
