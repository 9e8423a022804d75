/* What the header itself says: limits and lengths as macros, and the numbers in words. */
#include "model.h"

#include <string.h>

static void read_limits(void) {
    EXPECT(BRACKET_MAX_PARTICLES == 1024 && BRACKET_MAX_PAIRS == 4096 && BRACKET_MAX_ENTRIES == 16);
    EXPECT(BRACKET_MAX_ENVELOPE == 16384 && BRACKET_MAX_ITERATIONS == 4096);
    EXPECT(BRACKET_MAX_COLUMNS == 16 && BRACKET_UNLOADED == 4294967295 && BRACKET_ENDED == 6 && BRACKET_ENDED == BRACKET_COUNT_REFUSED);
    EXPECT(BRACKET_TALLY_CAP == 4000000000 && BRACKET_ABSENT == 4294967295 && BRACKET_COUNTS == 7);
}

/* The lengths are those that the calls ask for: with them a call is accepted, and with one less refused. */
static void read_rooms(void) {
    const uint32_t chain[] = {0, 1, 1, 2};
    struct model m;
    EXPECT(build(&m, 3, 2, chain) == 0);
    const size_t pairs = BRACKET_ROOM_PAIRS(2), cols = BRACKET_ROOM_COLS(3, 2), blocks = BRACKET_ROOM_BLOCKS(3, 2);
    EXPECT(pairs == 4 && cols == 7 && blocks == 28 && BRACKET_ROOM_ROW_OFFSETS(3) == 4 && BRACKET_ROOM_PARTICLES(3) == 3);
    EXPECT(BRACKET_ROOM_VECTOR(3) == 6 && BRACKET_ROOM_ROW_START(3) == 7 && BRACKET_ROOM_PRECONDITIONER(3) == 12);
    EXPECT(BRACKET_ROOM_COLUMNS(3, 2) == 24 && BRACKET_ROOM_COLUMNS(1024, 16) == 65536 && BRACKET_ROOM_PARTICLE_BLOCK(3) == 12);
    for (size_t k = 0; k < 7; k++) {
        const uint8_t refused = bracket_from_pairs(
            3, 2, chain, pairs - (k == 1), m.row_offsets, BRACKET_ROOM_ROW_OFFSETS(3) - (k == 2), m.cols, cols - (k == 3),
            m.diagonal, BRACKET_ROOM_PARTICLES(3) - (k == 4), m.blocks, blocks - (k == 5), m.building, pairs - (k == 6));
        EXPECT(refused == (k == 0 ? BRACKET_ACCEPTED : BRACKET_SHORT_BUFFER));
    }
    for (size_t k = 0; k < 5; k++) {
        const size_t n = BRACKET_ROOM_PARTICLES(3);
        const uint8_t refused = bracket_plan(
            3, PATTERN(&m), m.perm, n - (k == 1), m.inv_perm, n - (k == 2), m.first, BRACKET_ROOM_VECTOR(3) - (k == 3),
            m.row_start, BRACKET_ROOM_ROW_START(3) - (k == 4), m.degrees, n, m.placed, n, m.mark, n, m.level, n, m.queue, n);
        EXPECT(refused == (k == 0 ? BRACKET_ACCEPTED : BRACKET_SHORT_BUFFER));
    }
    for (size_t k = 0; k < 2; k++) {
        const uint8_t refused = bracket_update_preconditioner(
            3, PATTERN(&m), LENT(m.blocks), m.preconditioner, BRACKET_ROOM_PRECONDITIONER(3) - (k == 1));
        EXPECT(refused == (k == 0 ? BRACKET_ACCEPTED : BRACKET_SHORT_BUFFER));
    }
}

/* The greatest model's lists: one particle or pair more is refused before a list is looked at. */
static void read_bounds(void) {
    const size_t n = BRACKET_MAX_PARTICLES, pairs = BRACKET_MAX_PAIRS;
    struct model m;
    memset(&m, 0, sizeof m);
    EXPECT(bracket_pattern_from_pairs(n, pairs, NULL, 0, PATTERN(&m), NULL, 0) == BRACKET_SHORT_BUFFER);
    EXPECT(bracket_pattern_from_pairs(n + 1, pairs, NULL, 0, PATTERN(&m), NULL, 0) == BRACKET_TOO_MANY_PARTICLES);
    EXPECT(bracket_pattern_from_pairs(n, pairs + 1, NULL, 0, PATTERN(&m), NULL, 0) == BRACKET_TOO_MANY_ENTRIES);
}

/* Whether the words begin so. */
static bool begins(const char *words, const char *with) {
    return strncmp(words, with, strlen(with)) == 0;
}

/* Each number up to `last` has words of its own, and any other those of an unknown one. */
#define EXPECT_WORDS(text, last)                                                  \
    do {                                                                          \
        for (uint8_t a = 0; a <= (last); a++) {                                   \
            EXPECT(strlen(text(a)) > 0);                                          \
            for (uint8_t b = 0; b < a; b++) EXPECT(strcmp(text(a), text(b)) != 0); \
            EXPECT(strcmp(text(a), text((last) + 1)) != 0);                       \
        }                                                                         \
        EXPECT(begins(text((last) + 1), "no "));                                  \
        EXPECT(strcmp(text((last) + 1), text(255)) == 0);                         \
    } while (0)

static void read_words(void) {
    EXPECT_WORDS(bracket_refusal_text, 9);
    EXPECT_WORDS(bracket_factored_text, BRACKET_UNFACTORED);
    EXPECT_WORDS(bracket_outcome_text, BRACKET_NOTHING);
    EXPECT(strcmp(bracket_factored_text(UINT32_MAX), bracket_factored_text(3)) == 0);
    EXPECT(strcmp(bracket_outcome_text(UINT32_MAX), bracket_outcome_text(7)) == 0);
    EXPECT(strcmp(bracket_refusal_text(BRACKET_ACCEPTED), "accepted") == 0);
    EXPECT(strcmp(bracket_refusal_text(BRACKET_BAD_PATTERN), "a pattern isn't well formed") == 0);
    EXPECT(strcmp(bracket_factored_text(BRACKET_FACTORED), "factored") == 0 && begins(bracket_factored_text(BRACKET_FAILED), "failed"));
    for (uint32_t how = BRACKET_DIRECT; how <= BRACKET_CONVERGED; how++) EXPECT(begins(bracket_outcome_text(how), "solved"));
    EXPECT(begins(bracket_outcome_text(BRACKET_CURVATURE), "not solved") && begins(bracket_outcome_text(BRACKET_LIMIT), "not solved"));
    EXPECT(begins(bracket_outcome_text(BRACKET_NOTHING), "nothing to solve"));
    EXPECT(begins(bracket_combined_text(BRACKET_COMBINED), "combined") && begins(bracket_combined_text(BRACKET_NOTHING), "nothing to combine"));
    EXPECT(begins(bracket_combined_text(BRACKET_NOT_LOADED), "not combined"));
    for (uint32_t how = 1; how < 10; how++)
        if (how != BRACKET_NOTHING && how != BRACKET_NOT_LOADED) EXPECT(begins(bracket_combined_text(how), "no combination"));
    EXPECT(begins(bracket_combined_text(UINT32_MAX), "no combination"));
}

void read_header(void) {
    read_limits();
    read_rooms();
    read_bounds();
    read_words();
}
