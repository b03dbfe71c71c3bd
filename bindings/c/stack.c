/* How much stack the library's functions take: each is called on a thread whose stack was filled before, and what was written
 * there is counted. Prints the bytes of each, and fails where one is above what prelgammo.h says. */
#define _XOPEN_SOURCE 700
#include "prelgammo.h"

#include <pthread.h>
#include <stdio.h>
#include <string.h>

enum { FILL = 0xAA, SIZE = 512 * 1024 };

static _Alignas(4096) unsigned char stack[SIZE];
static om_map map, after;
static uint64_t out[OM_ROUNDS], out2[OM_ROUNDS], answer[4];
static uint8_t marks[OM_ROUNDS], image[OM_IMAGE];
static size_t image_len;

static void nothing(void) {}
static void new(void) { om_map_new(&map, OM_MEMBERS, OM_ROUNDS); }
static void well_linked(void) { om_map_well_linked(&map); }
static void append(void) { om_map_append(&map, 0, 7, 1); }
static void insert(void) { om_map_insert(&map, 0, 7, 1); }
static void insert_all(void) { om_map_insert_all(&map, 0, 7, 1, out, OM_ROUNDS); }
static void remove_(void) { om_map_remove(&map, 7); }
static void remove_all(void) { om_map_remove_all(&map, 7, out, OM_ROUNDS); }
static void occupied_append(void) { om_map_occupied_append(&map, 0, 8, 1); }
static void occupied_insert(void) { om_map_occupied_insert(&map, 0, 8, 1); }
static void occupied_remove_entry(void) { om_map_occupied_remove_entry(&map, 8); }
static void vacant_insert(void) { om_map_vacant_insert(&map, 0, OM_MEMBERS, 1); }
static void pop_front(void) { om_map_pop_front(&map); }
static void pop_back(void) { om_map_pop_back(&map); }
static void retain(void) { om_map_retain(&map, marks, om_map_values_len(&map).answer[1]); }
static void pack_to(void) { om_map_pack_to(&map, OM_MEMBERS, OM_ROUNDS); }
static void clear(void) { om_map_clear(&map); }
static void entry(void) { om_map_entry(&map, 7); }
static void get(void) { om_map_get(&map, 7); }
static void get_all(void) { om_map_get_all(&map, 7, out, OM_ROUNDS); }
static void entry_len(void) { om_map_entry_len(&map, 7); }
static void contains_key(void) { om_map_contains_key(&map, 7); }
static void keys(void) { om_map_keys(&map, out, OM_ROUNDS); }
static void keys_len(void) { om_map_keys_len(&map); }
static void values_len(void) { om_map_values_len(&map); }
static void iter(void) { om_map_iter(&map, out, OM_ROUNDS, out2, OM_ROUNDS); }
static void taken(void) { om_map_taken(&map, out); }
static void call(void) {
    om_map_call(&map, 13, 0, OM_MEMBERS, OM_ROUNDS, out, OM_ROUNDS, out2, OM_ROUNDS, marks, OM_ROUNDS);
}
static void write_image(void) { om_map_write_image(&map, image, OM_IMAGE); }
static void read_image(void) { om_map_read_image(&map, OM_MEMBERS, OM_ROUNDS, image, image_len); }
static void turn(void) {
    after = om_turn(map, 13, 0, OM_MEMBERS, OM_ROUNDS, out, OM_ROUNDS, out2, OM_ROUNDS, marks, OM_ROUNDS, answer);
}
static void play(void) {
    static const uint64_t calls[] = {0, 0, 7, 1, 0, 0, 0, 13, 0, 256, 1024, 0, 0, 0};
    static uint64_t answers[8];
    replay(OM_MEMBERS, OM_ROUNDS, calls, 14, out, 0, out2, 0, marks, 0, answers, 8);
}

/* A map that is nearly full, and its image. */
static void fill(void) {
    om_map_new(&map, OM_MEMBERS, OM_ROUNDS);
    for (uint64_t i = 0; i < OM_ROUNDS - 4; i++) {
        om_map_append(&map, 0, i % (OM_MEMBERS - 1), i);
        marks[i] = i % 3 > 0;
    }
    image_len = om_map_write_image(&map, image, OM_IMAGE).answer[1];
}

static void *run(void *function) {
    void (*call)(void);
    memcpy(&call, &function, sizeof call);
    call();
    return NULL;
}

/* The bytes from the lowest that was written to the top of the stack. */
static size_t written(void (*call)(void)) {
    pthread_attr_t attributes;
    pthread_t thread;
    void *function;
    size_t untouched = 0;
    memcpy(&function, &call, sizeof call);
    fill();
    memset(stack, FILL, SIZE);
    pthread_attr_init(&attributes);
    pthread_attr_setstack(&attributes, stack, SIZE);
    pthread_create(&thread, &attributes, run, function);
    pthread_join(thread, NULL);
    while (untouched < SIZE && stack[untouched] == FILL)
        untouched++;
    return SIZE - untouched;
}

static int failures = 0;

static void measure(const char *name, void (*call)(void), size_t most) {
    /* twice: the first call also has the functions of the C library looked up */
    written(call);
    size_t bytes = written(call) - written(nothing);
    printf("%-22s %6zu\n", name, bytes);
    if (bytes > most) {
        printf("%s takes more than %zu bytes of stack\n", name, most);
        failures++;
    }
}

#define MEASURE(CALL) measure(#CALL, CALL, OM_STACK)

int main(void) {
    MEASURE(new), MEASURE(well_linked), MEASURE(append), MEASURE(insert), MEASURE(insert_all), MEASURE(remove_);
    MEASURE(remove_all), MEASURE(occupied_append), MEASURE(occupied_insert), MEASURE(occupied_remove_entry);
    MEASURE(vacant_insert), MEASURE(pop_front), MEASURE(pop_back), MEASURE(retain), MEASURE(pack_to), MEASURE(clear);
    MEASURE(entry), MEASURE(get), MEASURE(get_all), MEASURE(entry_len), MEASURE(contains_key), MEASURE(keys);
    MEASURE(keys_len), MEASURE(values_len), MEASURE(iter), MEASURE(taken), MEASURE(call), MEASURE(write_image);
    MEASURE(read_image);
    measure("om_turn", turn, OM_STACK_BY_VALUE);
    measure("replay", play, OM_STACK);
    return failures != 0;
}
