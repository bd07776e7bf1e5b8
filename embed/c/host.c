/* A host that fills a storage buffer by place lookups, all in one call:
 *
 *   struct Cell { temperature: vec3<f32>, moisture: f32 }
 *   struct Kernel { turn: mat3x3<f32>, steps: u32, cells: array<Cell, 4>, tail: array<f32> }
 *
 * The matrix is filled column by column: 12 bytes at 0, 16 and 32. The host keeps a flag in the gap after each.
 * Before it fills the buffer it looks at the storage verdict: an accepted type may be one that no storage buffer can hold.
 */
#include <stdio.h>
#include <stdlib.h>
#include <string.h>

#include "../wuldazin.h"

#define LENGTH(array) (sizeof(array) / sizeof(array)[0])

enum { F32, VEC3, CELL, CELLS, U32, TAIL, MAT3X3, KERNEL, TYPES };
enum { COLUMNS = 3, COLUMN_STEP = 16, STEPS_START = 48, CELLS_START = 64, CELL_COUNT = 4, TAIL_START = 128, TAIL_COUNT = 8 };
enum { BYTES = TAIL_START + 4 * TAIL_COUNT, LEAVES = COLUMNS + 1 + 2 * CELL_COUNT + TAIL_COUNT, RUN_MOST = 2 + 3 };

static uint32_t types[] = {
    WULDAZIN_SCALAR, WULDAZIN_FLOAT, 4, 0, 0, 0,
    WULDAZIN_VECTOR, 3, WULDAZIN_FLOAT, 4, 0, 0,
    WULDAZIN_STRUCT, 0, 2, 16, 0, 0,
    WULDAZIN_ARRAY, CELL, WULDAZIN_CONSTANT, CELL_COUNT, 16, 0,
    WULDAZIN_SCALAR, WULDAZIN_UINT, 4, 0, 0, 0,
    WULDAZIN_ARRAY, F32, WULDAZIN_DYNAMIC, 0, 4, 0,
    WULDAZIN_MATRIX, COLUMNS, 3, WULDAZIN_FLOAT, 4, 0,
    WULDAZIN_STRUCT, 2, 4, 144, 0, 0,
};
static uint32_t members[] = {
    VEC3, 0, 0, 0, F32, 12, 0, 0,
    MAT3X3, 0, 0, 0, U32, STEPS_START, 0, 0, CELLS, CELLS_START, 0, 0, TAIL, TAIL_START, 0, 0,
};
static uint32_t rows[TYPES * WULDAZIN_ROW_WORDS];
static uint32_t answer[WULDAZIN_ANSWER_WORDS];
static unsigned char buffer[BYTES];

static void expect(const char *what, uint64_t found, uint64_t expected) {
    if (found == expected) return;
    fprintf(stderr, "%s: %llu, expected %llu (answer %u %u %u %u: %s)\n", what, (unsigned long long)found,
            (unsigned long long)expected, answer[0], answer[1], answer[2], answer[3], wuldazin_meaning(answer[0]));
    exit(1);
}

static const uint32_t *row(uint32_t ty) { return rows + ty * WULDAZIN_ROW_WORDS; }

static void judge(uint32_t number) {
    wuldazin_judge(types, LENGTH(types), members, LENGTH(members), 0, WULDAZIN_OLDER, rows, LENGTH(rows), answer, LENGTH(answer));
    expect("judge", answer[0], number);
}

/* Whether a storage buffer may hold the type, which `judge` has accepted. */
static bool is_usable_in_storage(uint32_t ty) {
    const uint32_t *verdict = row(ty) + WULDAZIN_ROW_STORAGE, needed = WULDAZIN_DATA | WULDAZIN_HOST_SHAREABLE;
    if (verdict[0] == WULDAZIN_VERDICT_OK) return (row(ty)[WULDAZIN_ROW_FLAGS] & needed) == needed;
    printf("type %u is accepted, but not usable in storage: code %u, type %u, member %u at %u, alignment %u\n", ty, verdict[0],
           verdict[1], verdict[2], verdict[3], verdict[4]);
    return false;
}

/* A column is rows times width bytes long, every other leaf as long as its type. */
static uint32_t leaf_size(uint32_t leaf) {
    const uint32_t *type = types + leaf * WULDAZIN_TYPE_WORDS;
    return type[0] == WULDAZIN_MATRIX ? type[2] * type[4] : row(leaf)[WULDAZIN_ROW_SIZE];
}

/* A leaf to be filled: its value, and the place that is expected. The steps to it are the next run. */
static struct {
    char name[32];
    uint32_t leaf;
    uint64_t byte;
    unsigned char value[12];
} leaves[LEAVES];
static uint32_t runs[LEAVES * RUN_MOST];
static size_t leaf_count, runs_length;

static void add(const char *name, const uint32_t *steps, uint32_t count, uint32_t leaf, uint64_t byte, const void *value) {
    snprintf(leaves[leaf_count].name, sizeof leaves[leaf_count].name, "%s", name);
    leaves[leaf_count].leaf = leaf;
    leaves[leaf_count].byte = byte;
    memcpy(leaves[leaf_count++].value, value, leaf_size(leaf));
    runs[runs_length++] = KERNEL;
    runs[runs_length++] = count;
    memcpy(runs + runs_length, steps, count * sizeof *steps);
    runs_length += count;
}

/* One call for the places of all leaves; each value is copied if its leaf lies within the buffer. */
static void fill(void) {
    uint32_t scratch[TYPES * WULDAZIN_SHORT_WORDS];
    uint64_t places[LEAVES * WULDAZIN_PLACE_WORDS];
    wuldazin_places(types, LENGTH(types), members, LENGTH(members), 0, scratch, LENGTH(scratch), runs, runs_length, places, LENGTH(places), answer,
                    LENGTH(answer));
    expect("places", answer[0], WULDAZIN_ACCEPTED);
    expect("leaves", leaf_count, LEAVES);
    for (size_t i = 0; i < LEAVES; i++) {
        const uint64_t *place = places + i * WULDAZIN_PLACE_WORDS;
        uint32_t size = leaf_size(leaves[i].leaf);
        expect(leaves[i].name, place[0], leaves[i].byte);
        expect(leaves[i].name, place[1], leaves[i].leaf);
        expect(leaves[i].name, place[0] <= BYTES && size <= BYTES - place[0], 1);
        memcpy(buffer + place[0], leaves[i].value, size);
        printf("%-22s byte %3u, %2u bytes\n", leaves[i].name, (unsigned)place[0], size);
    }
}

/* The byte after a column, which is in no leaf. */
static unsigned char *flag(uint32_t column) { return buffer + COLUMN_STEP * column + leaf_size(MAT3X3); }

static void add_turn(void) {
    char name[32];
    for (uint32_t i = 0; i < COLUMNS; i++) {
        float column[3] = {0};
        column[i] = 1;
        snprintf(name, sizeof name, "turn[%u]", i);
        add(name, (uint32_t[]){0, i}, 2, MAT3X3, COLUMN_STEP * i, column);
    }
}

/* No place, by one lookup with a row for each type and by one with three words. */
static void refuse_place(const char *name, const uint32_t *steps, size_t count) {
    uint32_t scratch[TYPES * WULDAZIN_SHORT_WORDS];
    uint64_t place[WULDAZIN_PLACE_WORDS];
    wuldazin_place(types, LENGTH(types), members, LENGTH(members), 0, WULDAZIN_OLDER, rows, LENGTH(rows), KERNEL, steps, count, place,
                   LENGTH(place), answer, LENGTH(answer));
    expect(name, answer[0], WULDAZIN_NO_SUCH_PLACE);
    wuldazin_place_short(types, LENGTH(types), members, LENGTH(members), 0, scratch, LENGTH(scratch), KERNEL, steps, count, place, LENGTH(place),
                         answer, LENGTH(answer));
    expect(name, answer[0], WULDAZIN_NO_SUCH_PLACE);
    expect(name, scratch[KERNEL * WULDAZIN_SHORT_WORDS + WULDAZIN_ROW_FLAGS], row(KERNEL)[WULDAZIN_ROW_FLAGS]);
}

static void dispatch(const uint64_t *pass, uint32_t number, uint64_t slots) {
    uint64_t missing[1];
    wuldazin_pass_dispatch(pass, WULDAZIN_PASS_WORDS, missing, LENGTH(missing), answer, LENGTH(answer));
    expect("dispatch", answer[0], number);
    expect("missing slots", missing[0], slots);
}

/* A pipeline whose immediates are a cell needs slots 0 to 3. */
static void try_pass(void) {
    uint64_t pass[WULDAZIN_PASS_WORDS];
    wuldazin_pass_start(pass, LENGTH(pass));
    wuldazin_pass_set(pass, LENGTH(pass), 0, 8, answer, LENGTH(answer));
    expect("bytes 0 to 7", answer[0], WULDAZIN_ACCEPTED);
    dispatch(pass, WULDAZIN_NOT_READY, 0);
    wuldazin_pass_choose(types, LENGTH(types), members, LENGTH(members), 0, WULDAZIN_OLDER, rows, LENGTH(rows), CELL, pass, LENGTH(pass), answer,
                         LENGTH(answer));
    expect("pipeline", answer[0], WULDAZIN_ACCEPTED);
    dispatch(pass, WULDAZIN_NOT_READY, 0xc);
    wuldazin_pass_set(pass, LENGTH(pass), 8, 6, answer, LENGTH(answer));
    expect("bytes 8 to 13", answer[0], WULDAZIN_NO_IMMEDIATES);
    wuldazin_pass_set(pass, LENGTH(pass), 8, 8, answer, LENGTH(answer));
    expect("bytes 8 to 15", answer[0], WULDAZIN_ACCEPTED);
    dispatch(pass, WULDAZIN_ACCEPTED, 0);
}

/* A cell carries all of its 16 bytes, the kernel 36 of its matrix and 4 + 64 + 4 of the rest, of 144. */
static void look_at_report(void) {
    uint64_t report[TYPES * WULDAZIN_REPORT_WORDS], totals[2], *kernel = report + KERNEL * WULDAZIN_REPORT_WORDS;
    wuldazin_report(types, LENGTH(types), members, LENGTH(members), 0, WULDAZIN_OLDER, rows, LENGTH(rows), report, LENGTH(report), totals,
                    LENGTH(totals), answer, LENGTH(answer));
    expect("report", answer[0], WULDAZIN_ACCEPTED);
    expect("carried by the kernel", kernel[0], 108);
    expect("wasted in the kernel", kernel[1], 36);
    expect("carried in all", totals[0], 16 + 108);
    expect("wasted in all", totals[1], 36);
    printf("the kernel carries %u bytes and wastes %u\n", (unsigned)kernel[0], (unsigned)kernel[1]);
}

static void look_at_slots(void) {
    uint64_t mask[WULDAZIN_MASK_WORDS];
    wuldazin_slots(types, LENGTH(types), members, LENGTH(members), 0, WULDAZIN_OLDER, rows, LENGTH(rows), CELL, 16, mask, LENGTH(mask), answer,
                   LENGTH(answer));
    expect("slots", answer[0], WULDAZIN_ACCEPTED);
    expect("slots of a cell at 16", mask[0], 0xf0);
    expect("slots of a cell at 16, in part", mask[1], 0);
    expect("they have slot 5", wuldazin_contains(mask[0], 0x20), true);
    expect("they have slots 3 and 5", wuldazin_contains(mask[0], 0x28), false);
    expect("without slots 3 and 5", wuldazin_difference(mask[0], 0x28), 0xd0);
    expect("and slots 3 and 5", wuldazin_union(mask[0], 0x28), 0xf8);
    wuldazin_range(3, 6, mask, LENGTH(mask), answer, LENGTH(answer));
    expect("range", answer[0], WULDAZIN_ACCEPTED);
    expect("slots of bytes 3 to 8", mask[0], 7);
    expect("slots of bytes 3 to 8, in part", mask[1], 5);
    /* A host that asks for no second mask lends one word. */
    wuldazin_range(252, 4, mask, 1, answer, LENGTH(answer));
    expect("range", answer[0], WULDAZIN_ACCEPTED);
    expect("slots of the last bytes", mask[0], UINT64_C(1) << 63);
    expect("the word that was not lent", mask[1], 5);
}

static void look_at_members_and_plain_types(void) {
    uint64_t part[2];
    uint32_t numbers[3];
    wuldazin_members(types, LENGTH(types), members, LENGTH(members), KERNEL, part, LENGTH(part));
    expect("first member word", part[0], 2 * WULDAZIN_MEMBER_WORDS);
    expect("member words", part[1], 4 * WULDAZIN_MEMBER_WORDS);
    wuldazin_plain(8, 4, numbers, LENGTH(numbers), answer, LENGTH(answer));
    expect("mat3x3 of f32", answer[0], WULDAZIN_ACCEPTED);
    expect("its size", numbers[0], 48);
    expect("its alignment", numbers[1], 16);
    expect("its column step", numbers[2], 16);
    wuldazin_plain(13, 4, numbers, LENGTH(numbers), answer, LENGTH(answer));
    expect("shape 13", answer[0], WULDAZIN_FIELD);
}

/* The cell's members otherwise: its moisture in the temperature's bytes; then its moisture first and its temperature right after it. */
static void try_other_cells(void) {
    members[WULDAZIN_MEMBER_WORDS + 1] = 8;
    judge(WULDAZIN_MEMBER_OVERLAP);
    printf("moisture at byte 8: refused, number %u, type %u, member %u: %s\n", answer[0], answer[1], answer[2],
           wuldazin_meaning(answer[0]));
    memcpy(members, (uint32_t[]){F32, 0, 0, 0, VEC3, 4, 0, 0}, 2 * WULDAZIN_MEMBER_WORDS * sizeof *members);
    judge(WULDAZIN_ACCEPTED);
    expect("usable in storage", is_usable_in_storage(CELL), false);
    expect("its storage code", row(CELL)[WULDAZIN_ROW_STORAGE], WULDAZIN_VERDICT_MEMBER_OFFSET);
}

int main(void) {
    char name[32];
    judge(WULDAZIN_ACCEPTED);
    expect("usable in storage", is_usable_in_storage(KERNEL), true);
    expect("storage alignment", row(KERNEL)[WULDAZIN_ROW_STORAGE + 1], 16);

    add_turn();
    add("steps", (uint32_t[]){1}, 1, U32, STEPS_START, &(uint32_t){1000});
    for (uint32_t i = 0; i < CELL_COUNT; i++) {
        float temperature[3] = {20 + i, 30 + i, 40 + i}, moisture = 0.25f * i;
        snprintf(name, sizeof name, "cells[%u].temperature", i);
        add(name, (uint32_t[]){2, i, 0}, 3, VEC3, CELLS_START + 16 * i, temperature);
        snprintf(name, sizeof name, "cells[%u].moisture", i);
        add(name, (uint32_t[]){2, i, 1}, 3, F32, CELLS_START + 12 + 16 * i, &moisture);
    }
    for (uint32_t i = 0; i < TAIL_COUNT; i++) {
        snprintf(name, sizeof name, "tail[%u]", i);
        add(name, (uint32_t[]){3, i}, 2, F32, TAIL_START + 4 * i, &(float){i});
    }
    /* Flags first: the columns spare them. */
    for (uint32_t i = 0; i < COLUMNS; i++) *flag(i) = 0xf0 + i;
    fill();
    for (uint32_t i = 0; i < COLUMNS; i++) expect("flag", *flag(i), 0xf0 + i);
    for (size_t i = 0; i < BYTES; i++) printf("%02x%s", buffer[i], i % 16 == 15 ? "\n" : i % 4 == 3 ? "  " : " ");
    refuse_place("cells[4]", (uint32_t[]){2, CELL_COUNT, 0}, 3);
    refuse_place("turn[3]", (uint32_t[]){0, COLUMNS}, 2);

    look_at_slots();
    look_at_members_and_plain_types();
    look_at_report();
    try_pass();
    try_other_cells();
    return 0;
}
