// The functions of libpainted.a, crates/painted: each calls one public function of a layer, by tie rule 1 where that takes one, and
// answers a number made of its answer. A row is a pointer and then how many numbers it has.
#include <stddef.h>
#include <stdint.h>

#define PAINTED_LINKS const uint16_t *links, size_t links_length
#define PAINTED_PARENTS const uint16_t *parents, size_t parents_length
#define PAINTED_NETWORK PAINTED_LINKS, PAINTED_PARENTS, uint16_t root, uint16_t depth
#define PAINTED_BLOCK uint16_t kind, uint16_t number, uint16_t used
#define PAINTED_CHANGE uint16_t link, uint16_t mark, uint16_t length

uint64_t painted_wide_at(const uint64_t *row, size_t row_length, size_t i);

uint64_t painted_link_at(PAINTED_LINKS, size_t e);
uint64_t painted_check_sizes(size_t n, size_t m, uint16_t root, uint16_t depth);
uint64_t painted_check_ends(PAINTED_LINKS, size_t n);
uint64_t painted_check_marks(PAINTED_LINKS);
uint64_t painted_check_parents(PAINTED_NETWORK);

uint64_t painted_check_block(PAINTED_BLOCK, const uint8_t *bytes, size_t bytes_length);
uint64_t painted_payload(PAINTED_BLOCK, const uint8_t *bytes, size_t bytes_length);
uint64_t painted_seal(uint8_t kind, uint16_t number, uint16_t used, uint8_t *bytes, size_t bytes_length);

uint64_t painted_up(PAINTED_NETWORK, size_t u);
uint64_t painted_rise(PAINTED_NETWORK, size_t u);
uint64_t painted_step(PAINTED_NETWORK, size_t u);
uint64_t painted_has_route(PAINTED_NETWORK, size_t u);
uint64_t painted_distances(PAINTED_NETWORK, uint64_t *row, size_t row_length);
uint64_t painted_check_way(PAINTED_NETWORK, size_t u);
uint64_t painted_route(PAINTED_NETWORK, size_t u, size_t *row, size_t row_length);
uint64_t painted_meet_of(PAINTED_NETWORK, size_t u, size_t z);
uint64_t painted_tree_distance(PAINTED_NETWORK, size_t u, size_t z);

uint64_t painted_put_header(uint8_t *bytes, size_t bytes_length, size_t at, uint16_t n, uint16_t m, uint16_t root,
    uint16_t depth);
uint64_t painted_put_link(uint8_t *bytes, size_t bytes_length, size_t at, uint16_t first, uint16_t second, uint16_t length,
    uint16_t mark);
uint64_t painted_put_entry(uint8_t *bytes, size_t bytes_length, size_t at, uint16_t parent, uint64_t state, uint64_t link,
    uint64_t cost);

uint64_t painted_survey(PAINTED_NETWORK, uint64_t *row, size_t row_length);
uint64_t painted_fill(PAINTED_NETWORK, uint64_t *survey, size_t survey_length);
uint64_t painted_survey_network(PAINTED_NETWORK, uint64_t *survey, size_t survey_length);
uint64_t painted_check_network(PAINTED_NETWORK);

uint64_t painted_check_table(PAINTED_NETWORK, const uint64_t *entries, size_t entries_length);
uint64_t painted_refresh(PAINTED_NETWORK, const uint64_t *marks, size_t marks_length, uint64_t *entries, size_t entries_length);
uint64_t painted_table(PAINTED_NETWORK, uint64_t *entries, size_t entries_length);
uint64_t painted_check_entry(PAINTED_NETWORK, size_t x);
uint64_t painted_entry_of(PAINTED_NETWORK, size_t x);

uint64_t painted_check_write(PAINTED_NETWORK, const uint8_t *bytes, size_t bytes_length);
uint64_t painted_write(PAINTED_NETWORK, uint8_t *bytes, size_t bytes_length);
uint64_t painted_check_read(const uint8_t *bytes, size_t bytes_length, PAINTED_LINKS, PAINTED_PARENTS,
    const uint64_t *entries, size_t entries_length);
uint64_t painted_read(const uint8_t *bytes, size_t bytes_length, uint16_t *links, size_t links_length, uint16_t *parents,
    size_t parents_length, uint64_t *entries, size_t entries_length);

uint64_t painted_check_change(PAINTED_NETWORK, const uint64_t *entries, size_t entries_length, PAINTED_CHANGE);
uint64_t painted_change(uint16_t *links, size_t links_length, PAINTED_PARENTS, uint16_t root, uint16_t depth,
    uint64_t *entries, size_t entries_length, PAINTED_CHANGE);

uint64_t painted_unprotected_map(PAINTED_NETWORK, uint64_t *words, size_t words_length);
uint64_t painted_forward_fill(PAINTED_NETWORK, uint16_t start, uint16_t failed, uint16_t *ordinary, size_t ordinary_length,
    uint16_t *detour, size_t detour_length);
uint64_t painted_forward(PAINTED_NETWORK, uint16_t start, uint16_t failed, uint16_t *ordinary, size_t ordinary_length,
    uint16_t *detour, size_t detour_length);
