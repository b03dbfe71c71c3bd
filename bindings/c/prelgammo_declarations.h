/* Made by tools/declarations.py from the crates' sources, and not to be edited. A part of prelgammo.h, which includes it:
 * the fields of a map, the functions of libprelgammo.a, and the bodies of those that prelgammo.h describes. */
#ifndef PRELGAMMO_H
#error "include prelgammo.h, of which this file is a part"
#endif

struct om_map {
    /* Of a member place: the member number, and how many rounds it has. */
    uint64_t keys[256];
    uint16_t length[256];
    /* The list of members: the place after a place and the one before it. After 256 comes the first, and before 256 the last. */
    uint16_t next_key[257];
    uint16_t previous_key[257];
    /* Of a round place: the round, and its member's place. */
    uint64_t values[1024];
    uint16_t key_index[1024];
    /* The list of rounds, likewise. After 1024 comes the first, and before 1024 the last. */
    uint16_t next_value[1025];
    uint16_t previous_value[1025];
    /* The next and the previous round of the same member. At 1024 + k the head and the tail of the member place k, where the
     * last round's next and the first one's previous lead back to. */
    uint16_t next_index[1280];
    uint16_t previous_index[1280];
    /* The index: member places, or EMPTY. */
    uint16_t index[512];
    /* Of each list: how many places are in use, how many have ever been, the first freed one, from which the others
     * follow by next, and the map's limit. */
    uint16_t members[4];
    uint16_t rounds[4];
    /* Rounds ever taken in, of each poster. */
    uint32_t taken[16];
};

static_assert(sizeof(om_map) == 24160, "size of the map");
static_assert(offsetof(om_map, keys) == 0, "keys");
static_assert(offsetof(om_map, length) == 2048, "length");
static_assert(offsetof(om_map, next_key) == 2560, "next_key");
static_assert(offsetof(om_map, previous_key) == 3074, "previous_key");
static_assert(offsetof(om_map, values) == 3592, "values");
static_assert(offsetof(om_map, key_index) == 11784, "key_index");
static_assert(offsetof(om_map, next_value) == 13832, "next_value");
static_assert(offsetof(om_map, previous_value) == 15882, "previous_value");
static_assert(offsetof(om_map, next_index) == 17932, "next_index");
static_assert(offsetof(om_map, previous_index) == 20492, "previous_index");
static_assert(offsetof(om_map, index) == 23052, "index");
static_assert(offsetof(om_map, members) == 24076, "members");
static_assert(offsetof(om_map, rounds) == 24084, "rounds");
static_assert(offsetof(om_map, taken) == 24092, "taken");

/* Defined by an archive of this layout and these signatures alone: another one does not link. */
extern const unsigned char prelgammo_layout_b340bb707711f605;

static inline void om_same_layout(void) {
    (void)*(const volatile unsigned char *)&prelgammo_layout_b340bb707711f605;
}

/* The functions of the library. */
void om_append(om_map *map, uint64_t poster, uint64_t k, uint64_t v, uint64_t answer[4]);
void om_call(om_map *map, uint64_t op, uint64_t poster, uint64_t k, uint64_t v, uint64_t *out, size_t out_len,
             uint64_t *out2, size_t out2_len, const uint8_t *marks, size_t marks_len, uint64_t answer[4]);
void om_clear(om_map *map, uint64_t answer[4]);
void om_contains_key(const om_map *map, uint64_t k, uint64_t answer[4]);
void om_entry(const om_map *map, uint64_t k, uint64_t answer[4]);
void om_entry_len(const om_map *map, uint64_t k, uint64_t answer[4]);
void om_get(const om_map *map, uint64_t k, uint64_t answer[4]);
void om_get_all(const om_map *map, uint64_t k, uint64_t *out, size_t out_len, uint64_t answer[4]);
void om_insert(om_map *map, uint64_t poster, uint64_t k, uint64_t v, uint64_t answer[4]);
void om_insert_all(om_map *map, uint64_t poster, uint64_t k, uint64_t v, uint64_t *out, size_t out_len,
                   uint64_t answer[4]);
void om_iter(const om_map *map, uint64_t *out, size_t out_len, uint64_t *out2, size_t out2_len, uint64_t answer[4]);
void om_keys(const om_map *map, uint64_t *out, size_t out_len, uint64_t answer[4]);
void om_keys_len(const om_map *map, uint64_t answer[4]);
void om_new(om_map *map, uint64_t members_limit, uint64_t rounds_limit, uint64_t answer[4]);
void om_occupied_append(om_map *map, uint64_t poster, uint64_t k, uint64_t v, uint64_t answer[4]);
void om_occupied_insert(om_map *map, uint64_t poster, uint64_t k, uint64_t v, uint64_t answer[4]);
void om_occupied_remove_entry(om_map *map, uint64_t k, uint64_t answer[4]);
void om_pack_to(om_map *map, uint64_t keys_minimum, uint64_t values_minimum, uint64_t answer[4]);
void om_pop_back(om_map *map, uint64_t answer[4]);
void om_pop_front(om_map *map, uint64_t answer[4]);
void om_read_image(om_map *map, uint64_t members_limit, uint64_t rounds_limit, const uint8_t *bytes, size_t bytes_len,
                   uint64_t answer[4]);
void om_remove(om_map *map, uint64_t k, uint64_t answer[4]);
void om_remove_all(om_map *map, uint64_t k, uint64_t *out, size_t out_len, uint64_t answer[4]);
void om_retain(om_map *map, const uint8_t *marks, size_t marks_len, uint64_t answer[4]);
void om_taken(const om_map *map, uint64_t out[16], uint64_t answer[4]);
om_map om_turn(om_map m, uint64_t op, uint64_t poster, uint64_t k, uint64_t v, uint64_t *out, size_t out_len,
               uint64_t *out2, size_t out2_len, const uint8_t *marks, size_t marks_len, uint64_t answer[4]);
void om_vacant_insert(om_map *map, uint64_t poster, uint64_t k, uint64_t v, uint64_t answer[4]);
void om_values_len(const om_map *map, uint64_t answer[4]);
uint64_t om_well_linked(const om_map *map);
void om_write_image(const om_map *map, uint8_t *out, size_t out_len, uint64_t answer[4]);
uint64_t replay(uint64_t members_limit, uint64_t rounds_limit, const uint64_t *calls, size_t calls_len, uint64_t *outs,
                size_t outs_len, uint64_t *outs2, size_t outs2_len, const uint8_t *marks, size_t marks_len,
                uint64_t *answers, size_t answers_len);

static inline om_said om_map_append(om_map *m, uint64_t poster, uint64_t k, uint64_t v) {
    om_said said;
    om_append(m, poster, k, v, said.answer);
    return said;
}

static inline om_said om_map_call(om_map *m, uint64_t op, uint64_t poster, uint64_t k, uint64_t v, uint64_t *out,
                                  size_t out_len, uint64_t *out2, size_t out2_len, const uint8_t *marks,
                                  size_t marks_len) {
    om_said said;
    om_call(m, op, poster, k, v, out, out_len, out2, out2_len, marks, marks_len, said.answer);
    return said;
}

static inline om_said om_map_clear(om_map *m) {
    om_said said;
    om_clear(m, said.answer);
    return said;
}

static inline om_said om_map_contains_key(const om_map *m, uint64_t k) {
    om_said said;
    om_contains_key(m, k, said.answer);
    return said;
}

static inline om_said om_map_entry(const om_map *m, uint64_t k) {
    om_said said;
    om_entry(m, k, said.answer);
    return said;
}

static inline om_said om_map_entry_len(const om_map *m, uint64_t k) {
    om_said said;
    om_entry_len(m, k, said.answer);
    return said;
}

static inline om_said om_map_get(const om_map *m, uint64_t k) {
    om_said said;
    om_get(m, k, said.answer);
    return said;
}

static inline om_said om_map_get_all(const om_map *m, uint64_t k, uint64_t *out, size_t out_len) {
    om_said said;
    om_get_all(m, k, out, out_len, said.answer);
    return said;
}

static inline om_said om_map_insert(om_map *m, uint64_t poster, uint64_t k, uint64_t v) {
    om_said said;
    om_insert(m, poster, k, v, said.answer);
    return said;
}

static inline om_said om_map_insert_all(om_map *m, uint64_t poster, uint64_t k, uint64_t v, uint64_t *out,
                                        size_t out_len) {
    om_said said;
    om_insert_all(m, poster, k, v, out, out_len, said.answer);
    return said;
}

static inline om_said om_map_iter(const om_map *m, uint64_t *out, size_t out_len, uint64_t *out2, size_t out2_len) {
    om_said said;
    om_iter(m, out, out_len, out2, out2_len, said.answer);
    return said;
}

static inline om_said om_map_keys(const om_map *m, uint64_t *out, size_t out_len) {
    om_said said;
    om_keys(m, out, out_len, said.answer);
    return said;
}

static inline om_said om_map_keys_len(const om_map *m) {
    om_said said;
    om_keys_len(m, said.answer);
    return said;
}

static inline om_said om_map_new(om_map *m, uint64_t members_limit, uint64_t rounds_limit) {
    om_said said;
    om_same_layout();
    om_new(m, members_limit, rounds_limit, said.answer);
    return said;
}

static inline om_said om_map_occupied_append(om_map *m, uint64_t poster, uint64_t k, uint64_t v) {
    om_said said;
    om_occupied_append(m, poster, k, v, said.answer);
    return said;
}

static inline om_said om_map_occupied_insert(om_map *m, uint64_t poster, uint64_t k, uint64_t v) {
    om_said said;
    om_occupied_insert(m, poster, k, v, said.answer);
    return said;
}

static inline om_said om_map_occupied_remove_entry(om_map *m, uint64_t k) {
    om_said said;
    om_occupied_remove_entry(m, k, said.answer);
    return said;
}

static inline om_said om_map_pack_to(om_map *m, uint64_t keys_minimum, uint64_t values_minimum) {
    om_said said;
    om_pack_to(m, keys_minimum, values_minimum, said.answer);
    return said;
}

static inline om_said om_map_pop_back(om_map *m) {
    om_said said;
    om_pop_back(m, said.answer);
    return said;
}

static inline om_said om_map_pop_front(om_map *m) {
    om_said said;
    om_pop_front(m, said.answer);
    return said;
}

static inline om_said om_map_read_image(om_map *m, uint64_t members_limit, uint64_t rounds_limit, const uint8_t *bytes,
                                        size_t bytes_len) {
    om_said said;
    om_same_layout();
    om_read_image(m, members_limit, rounds_limit, bytes, bytes_len, said.answer);
    return said;
}

static inline om_said om_map_remove(om_map *m, uint64_t k) {
    om_said said;
    om_remove(m, k, said.answer);
    return said;
}

static inline om_said om_map_remove_all(om_map *m, uint64_t k, uint64_t *out, size_t out_len) {
    om_said said;
    om_remove_all(m, k, out, out_len, said.answer);
    return said;
}

static inline om_said om_map_retain(om_map *m, const uint8_t *marks, size_t marks_len) {
    om_said said;
    om_retain(m, marks, marks_len, said.answer);
    return said;
}

static inline om_said om_map_taken(const om_map *m, uint64_t out[16]) {
    om_said said;
    om_taken(m, out, said.answer);
    return said;
}

static inline om_said om_map_vacant_insert(om_map *m, uint64_t poster, uint64_t k, uint64_t v) {
    om_said said;
    om_vacant_insert(m, poster, k, v, said.answer);
    return said;
}

static inline om_said om_map_values_len(const om_map *m) {
    om_said said;
    om_values_len(m, said.answer);
    return said;
}

static inline uint64_t om_map_well_linked(const om_map *m) {
    om_same_layout();
    return om_well_linked(m);
}

static inline om_said om_map_write_image(const om_map *m, uint8_t *out, size_t out_len) {
    om_said said;
    om_write_image(m, out, out_len, said.answer);
    return said;
}
