/* A small model's lists with fixed room, and what the C files share. */
#ifndef MODEL_H
#define MODEL_H

#include "bracket.h"

enum { PARTICLES = 6, PAIRS = 6, DOFS = BRACKET_ROOM_VECTOR(PARTICLES), ENVELOPE = 128 };

/* A list as a pointer and a length. */
#define LENT(list) (list), sizeof(list) / sizeof *(list)

/* The lists of a pattern, of a plan and of the conjugate gradient, in the order of their parameters. */
#define PATTERN(m) LENT((m)->row_offsets), LENT((m)->cols), LENT((m)->diagonal)
#define PLAN(m) LENT((m)->perm), LENT((m)->inv_perm), LENT((m)->first), LENT((m)->row_start)
#define WORK(m) LENT((m)->residual), LENT((m)->direction), LENT((m)->a_direction), LENT((m)->z)
#define TOLD(t) &(t)->how, &(t)->count, &(t)->residual_squared, &(t)->denominator

#define EXPECT(fact) expect((fact), #fact, __FILE__, __LINE__)

struct model {
    size_t n;
    uint32_t row_offsets[BRACKET_ROOM_ROW_OFFSETS(PARTICLES)], cols[BRACKET_ROOM_COLS(PARTICLES, PAIRS)], diagonal[PARTICLES];
    uint32_t building[BRACKET_ROOM_PAIRS(PAIRS)];
    float blocks[BRACKET_ROOM_BLOCKS(PARTICLES, PAIRS)];
    uint32_t perm[PARTICLES], inv_perm[PARTICLES], first[DOFS], row_start[BRACKET_ROOM_ROW_START(PARTICLES)];
    uint32_t degrees[PARTICLES], placed[PARTICLES], mark[PARTICLES], level[PARTICLES], queue[PARTICLES];
    float values[ENVELOPE], preconditioner[BRACKET_ROOM_PRECONDITIONER(PARTICLES)];
    float b[DOFS], x[DOFS], scratch[DOFS], residual[DOFS], direction[DOFS], a_direction[DOFS], z[DOFS];
};

struct told {
    uint32_t how;
    size_t count;
    float residual_squared, denominator;
};

/* Counts a fact, and says where it stands if it doesn't hold. */
void expect(bool holds, const char *fact, const char *file, int line);

/* How many facts were counted, and how many of them don't hold. */
extern int facts, failures;

/* Builds the pattern of these pairs, with zeroed values. */
uint8_t build(struct model *m, size_t n, size_t count, const uint32_t *pairs);

uint8_t plan(struct model *m);

bool same(const uint32_t *list, const uint32_t *wanted, size_t count);

/* The starred readings (docs/RULES.md, section 11), marked particles pinned, and refused calls (readings.c). */
void read_all(void);

/* The calls over columns (columns.c). */
void read_columns(void);

/* What the header itself says: limits, lengths and words (header.c). */
void read_header(void);

/* Every call with lists that are empty, and null (empty.c). */
void lend_nothing(void);

#endif
