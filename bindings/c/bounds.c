/* How far the library writes: a map between bytes that no call may touch. Prints what is wrong and fails, or nothing. */
#include "prelgammo.h"

#include <stdio.h>
#include <string.h>

enum { FILL = 0xAA, AROUND = 4096 };

static struct {
    unsigned char before[AROUND];
    om_map map;
    unsigned char after[AROUND];
} room;

static int failures = 0;

static void expect(int holds, const char *what) {
    if (!holds) {
        printf("bounds: %s\n", what);
        failures++;
    }
}

static void expect_untouched(const char *call) {
    for (size_t at = 0; at < AROUND; at++) {
        if (room.before[at] != FILL || room.after[at] != FILL) {
            expect(0, call);
            return;
        }
    }
}

/* The bytes of the map from `from` to `to` that still hold what they were filled with. */
static size_t filled(size_t from, size_t to) {
    const unsigned char *bytes = (const unsigned char *)&room.map;
    size_t count = 0;
    for (size_t at = from; at < to; at++)
        count += bytes[at] == FILL;
    return count;
}

/* The empty map, which a refused making leaves too, is written up to the end of its last field, save for four bytes between
 * two arrays, which no field has. */
static void make(uint64_t members_limit, uint64_t rounds_limit, uint64_t answer) {
    const size_t end = offsetof(om_map, taken) + sizeof room.map.taken;
    memset(&room, FILL, sizeof room);
    expect(om_map_new(&room.map, members_limit, rounds_limit).answer[0] == answer, "om_map_new answers something else");
    expect_untouched("om_map_new wrote beside the map");
    expect(filled(0, end) == 4, "om_map_new did not write all of the map");
    expect(filled(offsetof(om_map, taken), end) == 0, "om_map_new did not write the last field");
    expect(filled(end, sizeof room.map) == sizeof room.map - end, "om_map_new wrote past the last field");
}

static uint64_t read_into(uint64_t rounds_limit, const uint8_t *image, size_t len) {
    return om_map_read_image(&room.map, OM_MEMBERS, rounds_limit, image, len).answer[0];
}

static void fill_and_pack(void) {
    static uint8_t image[OM_IMAGE];
    for (uint64_t i = 0; i < OM_ROUNDS + 2; i++)
        om_map_append(&room.map, i % OM_POSTERS, i % OM_MEMBERS, UINT64_MAX - i);
    expect(om_map_values_len(&room.map).answer[1] == OM_ROUNDS, "the map is not full");
    om_map_append(&room.map, 0, OM_MEMBERS, 0);
    om_map_pop_front(&room.map);
    om_map_insert(&room.map, OM_POSTERS - 1, 7, 1);
    om_map_pack_to(&room.map, OM_MEMBERS, OM_ROUNDS);
    expect_untouched("a call wrote beside a full map");
    om_said written = om_map_write_image(&room.map, image, OM_IMAGE);
    om_map_clear(&room.map);
    expect(read_into(1, image, written.answer[1]) == OM_REFUSED, "the image is read into too low limits");
    expect(read_into(OM_ROUNDS, image, written.answer[1]) == OM_DONE, "the image is not read");
    expect_untouched("om_map_clear or om_map_read_image wrote beside the map");
    expect(om_map_well_linked(&room.map) == 1, "the map is not well-linked");
}

int main(void) {
    make(OM_MEMBERS + 1, OM_ROUNDS, OM_REFUSED);
    make(OM_MEMBERS, OM_ROUNDS, OM_DONE);
    fill_and_pack();
    return failures != 0;
}
