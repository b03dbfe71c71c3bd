/* The map from C: posts rounds as two posters, strikes some, lists them, saves an image, reads it back, checks a record,
 * and meets the limits of a small club. */
#include "prelgammo.h"

#include <inttypes.h>
#include <stdio.h>

static om_map club;

/* Who posts. */
enum { SHOP = 0, WEB = 3 };

static void say(const char *call, om_said said) {
    static const char *const names[] = {"refused", "none",   "done",     "round", "count",
                                        "present", "popped", "occupied", "vacant"};
    printf("%s: %s", call, names[said.answer[0]]);
    for (int i = 1; i < 4; i++)
        printf(" %" PRIu64, said.answer[i]);
    printf("\n");
}

static void list(void) {
    static uint64_t members[OM_ROUNDS], rounds[OM_ROUNDS];
    uint64_t count = om_map_iter(&club, members, OM_ROUNDS, rounds, OM_ROUNDS).answer[1];
    printf("list:");
    for (uint64_t i = 0; i < count; i++)
        printf(" %" PRIu64 ":%" PRIu64, members[i], rounds[i]);
    printf("\n");
}

static void counters(void) {
    uint64_t taken[OM_POSTERS];
    say("taken", om_map_taken(&club, taken));
    printf("counters:");
    for (int i = 0; i < OM_POSTERS; i++)
        printf(" %" PRIu64, taken[i]);
    printf("\n");
}

static void post_and_strike(void) {
    uint64_t old[4];
    const uint8_t marks[] = {0, 0, 1};
    say("append 7 10", om_map_append(&club, SHOP, 7, 10));
    say("append 7 11 as 3", om_map_append(&club, WEB, 7, 11));
    say("append 9 20", om_map_append(&club, SHOP, 9, 20));
    say("append 9 20 as 16", om_map_append(&club, OM_POSTERS, 9, 20));
    list();
    say("retain 001", om_map_retain(&club, marks, 3));
    list();
    say("retain 00", om_map_retain(&club, marks, 2));
    say("append 7 12", om_map_append(&club, SHOP, 7, 12));
    say("insert_all 9 21 as 3", om_map_insert_all(&club, WEB, 9, 21, old, 4));
    printf("old: %" PRIu64 "\n", old[0]);
    say("pack_to 1 2", om_map_pack_to(&club, 1, 2));
    list();
    counters();
}

static void write_and_read(void) {
    static uint8_t image[OM_IMAGE];
    static om_map other;
    om_said written = om_map_write_image(&club, image, OM_IMAGE);
    say("write_image", written);
    say("clear", om_map_clear(&club));
    list();
    say("read_image", om_map_read_image(&club, OM_MEMBERS, OM_ROUNDS, image, written.answer[1]));
    list();
    say("read_image of one byte less", om_map_read_image(&other, OM_MEMBERS, OM_ROUNDS, image, written.answer[1] - 1));
    say("read_image for 1 member", om_map_read_image(&other, 1, 2, image, written.answer[1]));
    counters();
}

static void check(void) {
    om_map record = club;
    printf("well_linked: %" PRIu64 "\n", om_map_well_linked(&record));
    record.length[0] += 1;
    printf("well_linked, damaged: %" PRIu64 "\n", om_map_well_linked(&record));
}

/* One that pays for a member and two rounds. */
static void small_club(void) {
    static om_map small;
    say("new 257 2", om_map_new(&small, OM_MEMBERS + 1, 2));
    say("new 1 2", om_map_new(&small, 1, 2));
    say("append 7 10", om_map_append(&small, SHOP, 7, 10));
    say("append 9 20", om_map_append(&small, SHOP, 9, 20));
    say("append 7 11", om_map_append(&small, SHOP, 7, 11));
    say("append 7 12", om_map_append(&small, SHOP, 7, 12));
    say("clear", om_map_clear(&small));
    say("pack_to 2 2", om_map_pack_to(&small, 2, 2));
}

int main(void) {
    say("new", om_map_new(&club, OM_MEMBERS, OM_ROUNDS));
    post_and_strike();
    write_and_read();
    check();
    small_club();
    return 0;
}
