/* The proved map from C: the functions of libprelgammo.a, which bindings/library.sh makes.
 *
 * A map is an om_map wherever its owner keeps it, and a call changes it there; nothing is copied and nothing allocated.
 * om_map_new and om_map_read_image take any om_map. Every other function is for a well-linked map: one that these two
 * made and only calls of this header have changed since, or of which om_map_well_linked says 1. A copy of a well-linked
 * map is one too. Threads may read one map together; a call that may change it has it alone.
 *
 * A map has two limits of its own, of members and of rounds, with which it was made or read and which every call keeps. It
 * is full where it holds as many: refusals 1, 2, 6 and 12 speak of its limits. A limit may be 0.
 *
 * Every call that adds a round takes a poster first, from 0 to 15, and counts the round for it. om_map_taken gives the
 * sixteen counters, which are a part of the map.
 *
 * Stack: om_map_pack_to and om_map_call take 13 KB of it, each other function of a map less than 3 KB; replay takes 37 KB,
 * and om_turn, which has the map by value, 108 KB at most, of which 48 KB are the caller's two copies.
 * stack.c measures it and holds it to OM_STACK and OM_STACK_BY_VALUE.
 *
 * A slice is a pointer and a length. The pointer is never NULL, also where the length is 0, and the slices of one call
 * overlap neither each other nor the map. An out slice may be longer than needed; what stands past the count that was
 * written is kept.
 *
 * The comments below name the refusals of each call, in the order of its checks; a refused call leaves the map as it was
 * and writes to no slice. The numbers and what they mean are in document 01's table, but for two of document 02: 15, of
 * request 1, where the limit of members is above OM_MEMBERS or that of rounds above OM_ROUNDS, and 16, of request 2, where
 * the poster is above 15. */
#ifndef PRELGAMMO_H
#define PRELGAMMO_H

#if defined(__cplusplus) ? __cplusplus < 201103L : !defined(__STDC_VERSION__) || __STDC_VERSION__ < 201112L
#error "prelgammo.h needs C11 or C++11, or later: compile with -std=c11 or -std=c++17"
#endif

#include <assert.h>
#include <stddef.h>
#include <stdint.h>

#ifdef __cplusplus
extern "C" {
#endif

enum {
    OM_MEMBERS = 256,                 /* the highest limit of members */
    OM_ROUNDS = 1024,                 /* the highest limit of rounds */
    OM_POSTERS = 16,                  /* how many posters there are: 0 to 15 */
    OM_IMAGE = 8 + 16 * OM_ROUNDS,    /* the bytes of the largest image */
    OM_STACK = 48 * 1024,             /* the bytes of stack within which the functions of a map and replay stay */
    OM_STACK_BY_VALUE = 128 * 1024    /* and om_turn */
};

/* The map; prelgammo_declarations.h has its fields. */
typedef struct om_map om_map;

/* An answer is four numbers: which one it is, and what it has. Those that are not named are 0. */
enum {
    OM_REFUSED = 0,  /* the number of the refusal */
    OM_NONE = 1,     /* nothing */
    OM_DONE = 2,     /* nothing */
    OM_ROUND = 3,    /* the round */
    OM_COUNT = 4,    /* the count */
    OM_PRESENT = 5,  /* 1 if the member was there, 0 if not */
    OM_POPPED = 6,   /* the member, the round, 1 if the member left, 0 if not */
    OM_OCCUPIED = 7, /* how many rounds the member has */
    OM_VACANT = 8    /* the member */
};

typedef struct om_said {
    uint64_t answer[4];
} om_said;

/* Makes m the empty map with these limits, whatever it was: OM_DONE. Refused by 15, with the empty map whose limits are
 * both 0. */
static inline om_said om_map_new(om_map *m, uint64_t members_limit, uint64_t rounds_limit);

/* 1 where m is well-linked, else 0. Takes any om_map. */
static inline uint64_t om_map_well_linked(const om_map *m);

/* Adds round v of member k at the back, for the poster: OM_PRESENT. Refused by 16, 1, 2. */
static inline om_said om_map_append(om_map *m, uint64_t poster, uint64_t k, uint64_t v);

/* Replaces all rounds of k by v, at the back, which counts one for the poster: OM_ROUND, the first of the old ones, or
 * OM_NONE. Refused by 16; then by 1, 2 where k is absent. */
static inline om_said om_map_insert(om_map *m, uint64_t poster, uint64_t k, uint64_t v);

/* The same, and writes all of the old rounds to out: OM_COUNT. Refused by 16; then by 1, 2 where k is absent, else by 3. */
static inline om_said om_map_insert_all(om_map *m, uint64_t poster, uint64_t k, uint64_t v, uint64_t *out,
                                        size_t out_len);

/* Takes member k and its rounds out: OM_ROUND, the first of them, or OM_NONE. */
static inline om_said om_map_remove(om_map *m, uint64_t k);

/* The same, and writes all of them to out: OM_COUNT. Refused by 3. */
static inline om_said om_map_remove_all(om_map *m, uint64_t k, uint64_t *out, size_t out_len);

/* Adds round v of the present member k at the back, for the poster: OM_DONE. Refused by 16, 9, 1. */
static inline om_said om_map_occupied_append(om_map *m, uint64_t poster, uint64_t k, uint64_t v);

/* Replaces all rounds of the present member k by v, which counts one for the poster: OM_ROUND, the first of the old ones.
 * Refused by 16, 9. */
static inline om_said om_map_occupied_insert(om_map *m, uint64_t poster, uint64_t k, uint64_t v);

/* Takes the present member k and its rounds out: OM_ROUND, the first of them. Refused by 9. */
static inline om_said om_map_occupied_remove_entry(om_map *m, uint64_t k);

/* Adds round v of the absent member k at the back, for the poster: OM_DONE. Refused by 16, 10, 1, 2. */
static inline om_said om_map_vacant_insert(om_map *m, uint64_t poster, uint64_t k, uint64_t v);

/* Takes the first round out: OM_POPPED, or OM_NONE. */
static inline om_said om_map_pop_front(om_map *m);

/* Takes the last round out: OM_POPPED, or OM_NONE. */
static inline om_said om_map_pop_back(om_map *m);

/* Takes the rounds with mark 0 out and keeps those with mark 1, one mark for each in the order of om_map_iter: OM_COUNT,
 * how many are kept. Refused by 7, 8. */
static inline om_said om_map_retain(om_map *m, const uint8_t *marks, size_t marks_len);

/* Puts rounds and members into the first places, in order: OM_DONE. Refused by 4, 5, 6. */
static inline om_said om_map_pack_to(om_map *m, uint64_t keys_minimum, uint64_t values_minimum);

/* Takes everything out and keeps the posters' counters: OM_DONE. */
static inline om_said om_map_clear(om_map *m);

/* OM_OCCUPIED or OM_VACANT. */
static inline om_said om_map_entry(const om_map *m, uint64_t k);

/* The first round of k: OM_ROUND, or OM_NONE. */
static inline om_said om_map_get(const om_map *m, uint64_t k);

/* Writes the rounds of k to out: OM_COUNT. Refused by 3. */
static inline om_said om_map_get_all(const om_map *m, uint64_t k, uint64_t *out, size_t out_len);

/* How many rounds k has: OM_COUNT. */
static inline om_said om_map_entry_len(const om_map *m, uint64_t k);

/* Whether k is a member: OM_PRESENT. */
static inline om_said om_map_contains_key(const om_map *m, uint64_t k);

/* Writes the members to out in the order in which they joined: OM_COUNT. Refused by 3. */
static inline om_said om_map_keys(const om_map *m, uint64_t *out, size_t out_len);

/* How many members there are: OM_COUNT. */
static inline om_said om_map_keys_len(const om_map *m);

/* How many rounds there are: OM_COUNT. */
static inline om_said om_map_values_len(const om_map *m);

/* Writes all rounds in posting order, the members to out and the rounds to out2: OM_COUNT. Refused by 3. */
static inline om_said om_map_iter(const om_map *m, uint64_t *out, size_t out_len, uint64_t *out2, size_t out2_len);

/* Writes how many rounds each poster ever added, from poster 0 on and up to 4,294,967,295 of each: OM_COUNT, 16. No call
 * makes a counter smaller. */
static inline om_said om_map_taken(const om_map *m, uint64_t out[OM_POSTERS]);

/* Makes one call by its number, from 0: append, insert, insert_all, remove, remove_all, entry, occupied_append,
 * occupied_insert, occupied_remove_entry, vacant_insert, pop_front, pop_back, retain, pack_to, clear, get, get_all,
 * entry_len, contains_key, keys, keys_len, values_len, iter, taken; every larger number is values_len. What the call does
 * not take is passed over. taken writes as many of its counters as out has room for, at most 16, and gives how many. */
static inline om_said om_map_call(om_map *m, uint64_t op, uint64_t poster, uint64_t k, uint64_t v, uint64_t *out,
                                  size_t out_len, uint64_t *out2, size_t out2_len, const uint8_t *marks,
                                  size_t marks_len);

/* Writes the image of the map to out: OM_COUNT, its bytes. Refused by 3. */
static inline om_said om_map_write_image(const om_map *m, uint8_t *out, size_t out_len);

/* Makes m the map of an image with these limits, whatever it was, with all of its rounds counted for poster 0: OM_DONE.
 * Refused by 15, with the empty map whose limits are both 0; then by 11 to 14, with the empty map that has these limits. */
static inline om_said om_map_read_image(om_map *m, uint64_t members_limit, uint64_t rounds_limit, const uint8_t *bytes,
                                        size_t bytes_len);

/* Declares the library's own functions: om_append and so on, which take a pointer to the map and write the four numbers of
 * an answer, and which those above call; om_turn, which is om_map_call with the map by value; and replay, which runs a list
 * of calls on the map that om_new makes with its limits, and gives back how many it ran (oracle/README.md says how the list
 * is laid out). */
#include "prelgammo_declarations.h"

#ifdef __cplusplus
}
#endif

#endif
