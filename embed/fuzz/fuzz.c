/* Calls every door with tables of any length and any words: fuzz [COUNT [SEED [FIRST]]]
 *
 * Each lent buffer stands at its exact length in one of three ways: right after a page that may not be touched, right before one,
 * or in a heap block between poisoned guard words. A side without such a page has guard words. After a call the guard words, the
 * inputs and every word that the header calls untouched must be as they were. Call FIRST of a seed can be run again alone.
 */
#include <sanitizer/asan_interface.h>
#include <sanitizer/common_interface_defs.h>
#include <stdbool.h>
#include <stdio.h>
#include <stdlib.h>
#include <string.h>
#include <sys/mman.h>
#include <time.h>

#include "../wuldazin.h"

enum {
    PAGE = 4096,
    GUARD = 64, /* bytes */
    TYPES_MOST = 6 * 1024 + 55,
    MEMBERS_MOST = WULDAZIN_MEMBER_WORDS * 4096 + 57,
    ROWS_MOST = 14 * (TYPES_MOST / 6) + 64,
    LENT_MOST = MEMBERS_MOST > ROWS_MOST ? MEMBERS_MOST : ROWS_MOST, /* the longest buffer */
    STEPS_MOST = 2048,
    RUNS = 6, /* of steps in one call */
    RUNS_MOST = RUNS * (STEPS_MOST + 2),
    REPORT_MOST = 2 * (TYPES_MOST / 6) + 64, /* 64-bit words */
    OUTPUT_MOST = 5, /* mask, pass, place, totals or part: 64-bit words; numbers: 32-bit words */
    ANSWER_MOST = 8,
    TEMPLATES = 64
};

enum { LAST_NUMBER = 37, UNANSWERED }; /* UNANSWERED: the buffer was too short for an answer */

enum { LAYOUT, JUDGE, CHECK, RANGE, SLOTS, CONTAINS, DIFFERENCE, UNION, START, SET, CHOOSE, DISPATCH, PLACE, SHORT, PLACES, REPORT, PLAIN, SPIRV, WGSL, ORDER, MEMBERS, DOORS };
static const char *const door_names[DOORS] = {"layout", "judge", "check",  "range",    "slots", "contains", "difference", "union",
                                              "start",  "set",   "choose", "dispatch", "place", "short",    "places",     "report",
                                              "plain",  "spirv", "wgsl",   "order",    "members"};

typedef struct {
    size_t types_length, members_length;
    uint32_t types[TYPES_MOST], members[MEMBERS_MOST];
} Tables;

/* Pages between two that may not be touched. */
typedef struct {
    unsigned char *start;
    size_t bytes;
} Room;

typedef struct {
    Room room;
    unsigned char before[4 * LENT_MOST]; /* what was lent */
    size_t bytes;
    unsigned char *data, *low, *high, *block;
} Lent;

static Tables templates[TEMPLATES], now;
static Lent types, members, steps, rows, report, output, answer;
static uint32_t noise[LENT_MOST + 1024];
static unsigned char guard[GUARD];
static uint64_t seed = 1, call, state;
static int door;
static uint64_t doors[DOORS], numbers[LAST_NUMBER + 1], blend_details[7], unanswered, columns;
static bool types_seen[TYPES_MOST + 1], members_seen[MEMBERS_MOST + 1];

static void say_where(void) {
    fprintf(stderr, "FAULT in call %llu of seed %llu, door %s\n", (unsigned long long)call, (unsigned long long)seed,
            door_names[door]);
}

static void require(bool holds, const char *what) {
    if (holds) return;
    fprintf(stderr, "%s\n", what);
    say_where();
    exit(1);
}

/* ---- random numbers (splitmix64) */
static uint64_t next(void) {
    uint64_t z = state += 0x9e3779b97f4a7c15;
    z = (z ^ (z >> 30)) * 0xbf58476d1ce4e5b9;
    z = (z ^ (z >> 27)) * 0x94d049bb133111eb;
    return z ^ (z >> 31);
}

static uint32_t word(void) { return next() >> 32; }

static uint32_t below(uint32_t bound) { return (uint64_t)word() * bound >> 32; }

/* A word anywhere in 32 bits, small and extreme ones often. */
static uint32_t wild(void) {
    switch (below(6)) {
    case 0: return word();
    case 1: return 1u << below(32);
    case 2: return -1 - below(20);
    case 3: return word() >> below(32);
    default: return below(20);
    }
}

/* Any length up to `most`, mostly a small one. */
static size_t any_length(uint32_t most) { return below(8) ? below(64) : below(most + 1); }

static uint32_t capability_word(void) {
    switch (below(16)) {
    case 0: return wild();
    case 1: return 0;
    case 2: return WULDAZIN_ALL_CAPABILITIES ^ 1 << below(14);
    case 3: return below(WULDAZIN_ALL_CAPABILITIES + 1);
    default: return WULDAZIN_ALL_CAPABILITIES;
    }
}

/* Mostly one of the two rules. */
static uint32_t rule_word(void) { return below(16) ? below(2) : wild(); }

/* ---- lent buffers */
static void build(Lent *lent, size_t most) {
    size_t bytes = (most + GUARD + PAGE - 1) / PAGE * PAGE;
    unsigned char *map = mmap(NULL, bytes + 2 * PAGE, PROT_NONE, MAP_PRIVATE | MAP_ANONYMOUS, -1, 0);
    if (map == MAP_FAILED || mprotect(map + PAGE, bytes, PROT_READ | PROT_WRITE)) {
        perror("mmap");
        exit(2);
    }
    lent->room = (Room){map + PAGE, bytes};
}

static void *lend(Lent *lent, const void *words, size_t bytes) {
    Room room = lent->room;
    memcpy(lent->before, words, bytes);
    lent->bytes = bytes;
    lent->low = lent->high = lent->block = NULL;
    switch (below(4)) {
    case 0:
        lent->low = lent->block = malloc(bytes + 2 * GUARD);
        lent->data = lent->low + GUARD;
        lent->high = lent->data + bytes;
        break;
    case 1:
        lent->data = room.start;
        lent->high = lent->data + bytes;
        break;
    default:
        lent->data = room.start + room.bytes - bytes;
        lent->low = lent->data - GUARD;
    }
    if (lent->low) memcpy(lent->low, guard, GUARD);
    if (lent->high) memcpy(lent->high, guard, GUARD);
    memcpy(lent->data, words, bytes);
    if (lent->block) {
        ASAN_POISON_MEMORY_REGION(lent->low, GUARD);
        ASAN_POISON_MEMORY_REGION(lent->high, GUARD);
    }
    return lent->data;
}

/* The guard words, and the bytes after the first `written` ones, are as they were. */
static void take_back(Lent *lent, size_t written) {
    if (lent->block) {
        ASAN_UNPOISON_MEMORY_REGION(lent->low, GUARD);
        ASAN_UNPOISON_MEMORY_REGION(lent->high, GUARD);
    }
    require(!lent->low || !memcmp(lent->low, guard, GUARD), "guard words before a buffer changed");
    require(!lent->high || !memcmp(lent->high, guard, GUARD), "guard words after a buffer changed");
    require(!memcmp(lent->data + written, lent->before + written, lent->bytes - written), "words that are not to be touched changed");
    free(lent->block);
}

/* ---- tables */
static uint32_t rounded(uint32_t at, uint32_t to) { return to ? (at + to - 1) / to * to : at; }

/* Appends a type that is likely to be accepted after the others, whose rows are given. */
static void propose(Tables *t, const uint32_t *row) {
    static const unsigned char kinds[] = {0, 0, 1, 1, 2, 3, 4, 5, 6, 7, 7, 7, 8, 8, 8, 8, 9, 10, 11, 12, 13};
    static const unsigned char widths[] = {4, 4, 4, 2, 8, 1};
    uint32_t count = t->types_length / 6, base = below(count + 1), width = widths[below(6)], at = 0, align = 1;
    uint32_t *r = t->types + t->types_length;
    memset(r, 0, 6 * sizeof *r);
    t->types_length += 6;
    uint32_t first = t->members_length / WULDAZIN_MEMBER_WORDS;
    switch (r[0] = kinds[below(sizeof kinds)]) {
    case 0: case 4: r[1] = below(4), r[2] = width; break;
    case 1: r[1] = 2 + below(3), r[2] = below(4), r[3] = width; break;
    case 2: r[1] = 2 + below(3), r[2] = 2 + below(3), r[3] = 2, r[4] = width; break;
    case 3: r[1] = 8 << below(2), r[2] = 8 << below(2), r[3] = 2, r[4] = width, r[5] = below(3); break;
    case 5: r[1] = base, r[2] = below(10); break;
    case 6: r[1] = below(4), r[2] = width, r[3] = below(10); break;
    case 7: case 13:
        r[1] = base, r[2] = below(4) == 0, r[3] = r[2] ? 0 : 1 + below(4);
        if (r[0] == 7 && base < count) r[4] = rounded(row[14 * base], row[14 * base + 1]);
        break;
    case 8:
        r[1] = first, r[2] = 1 + below(4);
        for (uint32_t j = 0; j < r[2] && count && t->members_length < WULDAZIN_MEMBER_WORDS * 4096; j++) {
            uint32_t ty = below(count), *m = t->members + t->members_length;
            at = rounded(at, row[14 * ty + 1]);
            align = row[14 * ty + 1] > align ? row[14 * ty + 1] : align;
            m[0] = ty, m[1] = at, m[2] = below(4) ? 0 : 1 + below(3), m[3] = 0, at += row[14 * ty];
            t->members_length += WULDAZIN_MEMBER_WORDS;
        }
        r[3] = rounded(at, align);
        break;
    case 9: r[1] = below(4), r[2] = below(2), r[3] = below(4); break;
    case 11: case 12: r[1] = below(2);
    }
}

/* An accepted arena of `count` types: what is not accepted is taken off again. */
static void grow(Tables *t, uint32_t count) {
    static uint32_t row[ROWS_MOST];
    uint32_t found[4];
    t->types_length = t->members_length = 0;
    for (uint32_t tries = 0; t->types_length < 6 * count; tries++) {
        require(tries < 1000 + 100 * count, "no arena is accepted");
        size_t types_length = t->types_length, members_length = t->members_length;
        propose(t, row);
        wuldazin_check(t->types, t->types_length, t->members, t->members_length, WULDAZIN_ALL_CAPABILITIES, WULDAZIN_OLDER, row, ROWS_MOST, found, 4);
        if (found[0] || row[14 * (types_length / 6)] > 1 << 20) {
            t->types_length = types_length, t->members_length = members_length;
            wuldazin_check(t->types, types_length, t->members, members_length, WULDAZIN_ALL_CAPABILITIES, WULDAZIN_OLDER, row, ROWS_MOST, found, 4);
        }
    }
}

/* Structs in structs, as deep as an arena can have them, and in the last a mat2x2<f32>: no place has more steps. */
static void nest(Tables *t) {
    t->types_length = 6 * 1024, t->members_length = WULDAZIN_MEMBER_WORDS * 1023;
    memcpy(t->types, (uint32_t[]){2, 2, 2, 2, 4, 0}, 24);
    for (uint32_t i = 1; i < 1024; i++) {
        memcpy(t->types + 6 * i, (uint32_t[]){8, i - 1, 1, 16, 0, 0}, 24);
        memcpy(t->members + WULDAZIN_MEMBER_WORDS * (i - 1), (uint32_t[]){i - 1, 0, 0, 0}, 16);
    }
}

/* One word away from refusals that are seldom met by chance. */
static void hand_made(Tables *t) {
    static const uint32_t records[] = {
        0, 2, 4, 0, 0, 0,  /* f32 */
        7, 0, 1, 0, 4, 0,  /* array<f32> */
        8, 0, 2, 8, 0, 0,  /* struct { f32, array<f32> } */
        5, 2, 4, 0, 0, 0,  /* pointer to it in Storage */
        9, 1, 0, 2, 0, 0,  /* external image */
        9, 1, 0, 0, 0, 0,  /* sampled image */
        13, 5, 0, 4, 0, 0, /* binding array of it */
    };
    memcpy(t->types, records, sizeof records);
    memcpy(t->members, (uint32_t[]){0, 0, 0, 0, 1, 4, 0, 0}, 32);
    t->types_length = sizeof records / 4, t->members_length = 8;
}

/* A host-shareable struct that reaches an array with a stride below its element's size, which only the report refuses. */
static void narrow(Tables *t) {
    memcpy(t->types, (uint32_t[]){0, 2, 4, 0, 0, 0, 7, 0, 0, 3, 2, 0, 8, 0, 1, 8, 0, 0}, 72);
    memcpy(t->members, (uint32_t[]){1, 0, 0, 0}, 16);
    t->types_length = 18, t->members_length = 4;
}

/* Two blend sources: one word away from each refusal of a blend source, from 5 by an atomic<f32> in place of the f32. */
static void blended(Tables *t) {
    memcpy(t->types, (uint32_t[]){0, 2, 4, 0, 0, 0, 0, 1, 4, 0, 0, 0, 8, 0, 3, 12, 0, 0}, 72);
    memcpy(t->members, (uint32_t[]){0, 0, 1, 1, 0, 4, 1, 2, 1, 8, 0, 0}, 48);
    t->types_length = 18, t->members_length = 12;
}

/* Templates 0 to 2 are full, up to 11 of middle size, the others small. */
static void make_templates(void) {
    nest(templates);
    for (uint32_t k = 1; k < TEMPLATES - 12; k++) grow(templates + k, k < 3 ? 1024 : k < 12 ? 30 * k : 1 + below(20));
    for (uint32_t k = TEMPLATES - 12; k < TEMPLATES - 2; k++) blended(templates + k);
    narrow(templates + TEMPLATES - 2);
    hand_made(templates + TEMPLATES - 1);
    for (Tables *t = templates; t < templates + TEMPLATES; t++) {
        static uint32_t row[ROWS_MOST];
        uint32_t found[4];
        wuldazin_check(t->types, t->types_length, t->members, t->members_length, WULDAZIN_ALL_CAPABILITIES, WULDAZIN_OLDER, row, ROWS_MOST, found, 4);
        require(found[0] == 0, "a template is refused");
    }
}

static void random_words(uint32_t *words, size_t length, bool small) {
    for (size_t i = 0; i < length; i++) words[i] = small ? below(i % 6 ? 5 : 14) : word();
}

/* Random lengths and words, or a template with bits flipped, cut or made longer. */
static void make_tables(void) {
    if (below(8) == 0) {
        now.types_length = any_length(TYPES_MOST);
        now.members_length = any_length(MEMBERS_MOST);
        bool small = below(2);
        random_words(now.types, now.types_length, small);
        random_words(now.members, now.members_length, small);
        return;
    }
    uint32_t size = below(128);
    Tables *t = templates + (size == 0 ? below(3) : size < 4 ? 3 + below(9) : 12 + below(TEMPLATES - 12));
    now.types_length = t->types_length;
    now.members_length = t->members_length;
    memcpy(now.types, t->types, t->types_length * sizeof *t->types);
    memcpy(now.members, t->members, t->members_length * sizeof *t->members);
    for (uint32_t flips = below(2) ? 0 : below(4) ? 1 + below(2) : below(16); flips; flips--) {
        uint32_t *w;
        int tries = 4; /* for a word that is in use */
        do {
            size_t at = below(now.types_length + now.members_length);
            w = at < now.types_length ? now.types + at : now.members + at - now.types_length;
        } while (*w == 0 && --tries);
        switch (below(8)) {
        case 0: *w = wild(); break;
        case 1: *w = now.types_length ? now.types[below(now.types_length)] : 0; break;
        case 2: *w = now.members_length ? now.members[below(now.members_length)] : 0; break;
        default: *w ^= 1u << below(below(4) ? 5 : 32);
        }
    }
    if (below(16) == 0) now.types_length = below(now.types_length + 1);
    if (below(16) == 0) now.types_length -= now.types_length % 6;
    if (below(16) == 0) now.members_length = below(now.members_length + 1);
    for (uint32_t more = below(16) ? 0 : below(14); more; more--) now.types[now.types_length++] = wild();
    for (uint32_t more = below(16) ? 0 : below(6); more; more--) now.members[now.members_length++] = wild();
}

static size_t rows_length(void) {
    size_t needed = now.types_length / 6 * 14, less = 1 + below(14);
    switch (below(16)) {
    case 0: return below(needed + 1);
    case 1: return below(64);
    case 2: return needed < less ? 0 : needed - less;
    case 3: case 4: case 5: case 6: return needed + below(60);
    default: return needed;
    }
}

static size_t report_length(void) {
    size_t needed = now.types_length / 6 * 2;
    switch (below(16)) {
    case 0: return below(needed + 1);
    case 1: return needed ? needed - 1 : 0;
    case 2: case 3: case 4: return needed + below(60);
    default: return needed;
    }
}

static uint32_t type_number(void) { return below(8) ? below(now.types_length / 6 + 1) : wild(); }

/* The member rows of a record, or none. */
static const uint32_t *member_rows(const uint32_t *r) {
    bool within = r[0] == 8 && (uint64_t)r[1] + r[2] <= now.members_length / WULDAZIN_MEMBER_WORDS;
    return within ? now.members + WULDAZIN_MEMBER_WORDS * r[1] : NULL;
}

/* Any steps, or ones that follow the records, some of them with a change. */
static size_t make_steps(uint32_t *list, uint32_t ty) {
    size_t length = 0;
    if (below(4) == 0) {
        length = any_length(STEPS_MOST);
        for (size_t i = 0; i < length; i++) list[i] = wild();
        return length;
    }
    while (length < STEPS_MOST - 1 && ty < now.types_length / 6) {
        const uint32_t *r = now.types + 6 * ty, *m = member_rows(r);
        if (r[0] == 7) list[length++] = r[2] ? wild() : below(r[3]), ty = r[1];
        else if (m && r[2]) list[length] = below(r[2]), ty = m[WULDAZIN_MEMBER_WORDS * list[length++]];
        else {
            if (r[0] == 2) list[length++] = below(r[1]);
            break;
        }
    }
    switch (below(12)) {
    case 0: list[length++] = wild(); break;
    case 1: length = below(length + 1); break;
    case 2: if (length) list[below(length)] = wild();
    }
    return length;
}

/* ---- calls */
/* The number of an answer, after what the header says of every answer. */
static uint32_t number_of(bool fits, uint32_t count) {
    uint32_t a[4];
    if (answer.bytes < sizeof a) {
        unanswered++;
        return UNANSWERED;
    }
    memcpy(a, answer.data, sizeof a);
    require(a[0] <= LAST_NUMBER, "number above the last");
    require((a[0] == 1) == !fits, "number 1 given or kept back wrongly");
    require(a[1] < count || a[1] == 0, "type outside the arena");
    bool bare = a[0] <= 1 || a[0] == 25 || a[0] == 26 || (a[0] > 27 && a[0] != 34) || door == PLAIN || door == SPIRV;
    require(!bare || (a[1] | a[2] | a[3]) == 0, "words beside a number that has none");
    require((a[0] != 27 && a[0] != 34) || a[2] == 0, "member beside a number that has none");
    require(a[0] == 8 ? a[3] <= 13 : a[0] == 34 ? a[3] >= 1 && a[3] <= 6 : a[3] == 0, "detail");
    numbers[a[0]]++;
    if (a[0] == 34) blend_details[a[3]]++;
    return a[0];
}

/* A leaf is data, and neither array nor struct; of a matrix it is the column that the last step names. */
static void look_at_leaf(uint64_t leaf, const uint32_t *list, size_t length) {
    require(leaf < now.types_length / 6, "leaf outside the arena");
    const uint32_t *r = now.types + 6 * leaf;
    require(r[0] <= 4 || r[0] == 12, "leaf of a type that is none");
    require(r[0] != 2 || (length && list[length - 1] < r[1]), "leaf that is no column");
    if (r[0] == 2) columns++;
}

/* Zeros in refused rows, sane words in accepted ones. */
static void look_at_rows(uint32_t number, uint32_t count) {
    bool refused = (number >= 2 && number <= 24) || number == 34;
    for (uint32_t i = 0; i < count; i++) {
        uint32_t r[14], all = 0;
        memcpy(r, rows.data + i * sizeof r, sizeof r);
        for (int k = refused ? 0 : 2; k < 14; k++) all |= r[k];
        if (refused || door == LAYOUT) require(all == 0, "words that are to be 0");
        if (number == 0 || (number >= 25 && number <= LAST_NUMBER && number != 34)) {
            require(r[1] && !(r[1] & (r[1] - 1)), "alignment no power of two");
            require(r[2] <= 255 && r[3] <= 6 && r[8] <= 6 && r[13] <= 6, "flags, codes or immediates word");
        }
    }
}

/* How many 64-bit words the door writes: as many of the two masks as there is room for; a place, totals or a part whole or not at all. */
static size_t words_written(size_t length) {
    if (length >= 2) return 2;
    return door == RANGE || door == SLOTS ? length : 0;
}

/* The slots that a range touches and those that it covers only in part, byte by byte. */
static void range_masks(uint32_t offset, uint32_t size, uint64_t *masks) {
    masks[0] = masks[1] = 0;
    for (uint64_t slot = 0; slot < 64; slot++) {
        int covered = 0;
        for (uint64_t byte = 4 * slot; byte < 4 * slot + 4; byte++) covered += byte >= offset && byte - offset < size;
        if (covered > 0) masks[0] |= UINT64_C(1) << slot;
        if (covered > 0 && covered < 4) masks[1] |= UINT64_C(1) << slot;
    }
}

/* Bits that are set rarely, often or half of the time. */
static uint64_t any_mask(void) {
    switch (below(4)) {
    case 0: return next();
    case 1: return next() & next() & next();
    case 2: return UINT64_C(1) << below(64);
    default: return below(2) ? 0 : UINT64_MAX;
    }
}

/* Masks that have slots in common or none, looked at slot by slot. */
static void mask_call(void) {
    uint64_t mask = any_mask(), other = any_mask(), left = 0, joined = 0;
    bool contained = true;
    if (below(4) == 0) other &= mask;
    if (below(4) == 0) mask |= other & ~(UINT64_C(1) << below(64));
    for (int slot = 0; slot < 64; slot++) {
        bool in_mask = mask >> slot & 1, in_other = other >> slot & 1;
        if (in_mask && !in_other) left += UINT64_C(1) << slot;
        if (in_mask || in_other) joined += UINT64_C(1) << slot;
        contained = contained && (in_mask || !in_other);
    }
    switch (door) {
    case CONTAINS: require(wuldazin_contains(mask, other) == contained, "contains"); break;
    case DIFFERENCE: require(wuldazin_difference(mask, other) == left, "difference"); break;
    case UNION: require(wuldazin_union(mask, other) == joined, "union");
    }
}

/* Shapes and widths of entries, near them, and any. */
static void plain_call(size_t answer_length, size_t numbers_length) {
    uint32_t n[3], shape = below(4) ? below(16) : wild(), width = below(4) ? 1u << below(5) : wild();
    uint32_t *numbers = lend(&output, noise + below(1024), 4 * numbers_length);
    uint32_t *a = lend(&answer, noise + below(1024), 4 * answer_length);
    wuldazin_plain(shape, width, numbers, numbers_length, a, answer_length);
    bool other = shape > 12 || (width != 1 && width != 2 && width != 4 && width != 8);
    uint32_t number = number_of(true, 0);
    require(number == UNANSWERED || number == (other ? 2 : 0), "plain");
    if (numbers_length >= 3) {
        memcpy(n, output.data, sizeof n);
        require(!other || (n[0] | n[1] | n[2]) == 0, "numbers beside a refusal");
        require(other || (n[0] && n[1] && !(n[1] & (n[1] - 1))), "size or alignment");
        require(other || n[2] == (shape < 4 ? 0 : n[1]), "column step");
    }
    take_back(&output, numbers_length < 3 ? 0 : sizeof n);
    take_back(&answer, answer_length < 4 ? 0 : 16);
}

/* A range in fours or not, the words of a pass before and after it. */
static uint32_t set_number(uint32_t offset, uint32_t size, bool fits, uint64_t *after) {
    uint64_t masks[2];
    if (!fits) return 1;
    if ((offset | size) & 3) return 37;
    if (size && (uint64_t)offset + size > 256) return 25;
    range_masks(offset, size, masks);
    after[0] |= masks[0], after[2] = after[2] != 0;
    return 0;
}

/* Starting, setting and dispatching, on any words: fewer than three are refused, and no other word is touched. */
static void pass_call(size_t answer_length, size_t length) {
    uint64_t after[OUTPUT_MOST], missing[2] = {0, 0}, slots = 0;
    bool fits = length >= 3;
    uint32_t offset = below(2) ? 4 * below(70) : wild(), size = below(2) ? 4 * below(70) : wild(), number = 0;
    for (int i = 0; i < OUTPUT_MOST; i++) after[i] = below(3) ? next() & next() & next() : 0;
    if (below(2)) after[0] |= after[1];
    uint64_t *pass = lend(&output, after, 8 * length);
    uint32_t *a = lend(&answer, noise + below(1024), 4 * answer_length);
    if (door == START) {
        wuldazin_pass_start(pass, length);
        if (fits) after[0] = after[1] = after[2] = 0;
    } else if (door == SET) {
        wuldazin_pass_set(pass, length, offset, size, a, answer_length);
        number = set_number(offset, size, fits, after);
    } else {
        size_t missing_length = below(3);
        uint64_t *m = lend(&report, noise + below(1024), 8 * missing_length);
        wuldazin_pass_dispatch(pass, length, m, missing_length, a, answer_length);
        if (fits && after[2]) slots = after[1] & ~after[0];
        number = !fits ? 1 : after[2] && !slots ? 0 : 36;
        memcpy(missing, report.data, 8 * missing_length);
        require(!missing_length || missing[0] == slots, "missing slots");
        take_back(&report, missing_length ? 8 : 0);
    }
    if (door != START) {
        uint32_t found = number_of(fits, 0);
        require(found == UNANSWERED || found == number, "number of a step");
    }
    require(!memcmp(output.data, after, 8 * length), "words of a pass");
    take_back(&output, 8 * length);
    take_back(&answer, door == START || answer_length < 4 ? 0 : 16);
}

/* An accepted choice leaves the slots set, the first mask of the type and 1; a refused one leaves the pass. Takes the pass back. */
static void look_at_choice(uint32_t number, uint32_t capabilities, uint32_t rule, uint32_t ty) {
    static uint32_t row[ROWS_MOST];
    uint32_t found[4];
    uint64_t before[3], after[3], masks[2];
    if (number == 0) {
        memcpy(before, output.before, sizeof before);
        memcpy(after, output.data, sizeof after);
        wuldazin_slots(now.types, now.types_length, now.members, now.members_length, capabilities, rule, row, ROWS_MOST, ty, 0, masks, 2, found, 4);
        require(found[0] == 0, "chosen, but its slots are refused");
        require(after[0] == before[0] && after[1] == masks[0] && after[2] == 1, "pass after a choice");
    }
    bool told_refused = number != 0 && number != UNANSWERED;
    take_back(&output, told_refused || output.bytes < sizeof after ? 0 : sizeof after);
}

/* The two words of a host-shareable struct make up its size, others are 0, and the totals are the sums. Takes the report back. */
static void look_at_report(uint32_t number, bool fits, uint32_t count) {
    bool told = fits && number != UNANSWERED;
    uint64_t sums[2] = {0, 0};
    for (uint32_t i = 0; told && i < count; i++) {
        uint32_t r[14];
        uint64_t w[2];
        memcpy(r, rows.data + i * sizeof r, sizeof r);
        memcpy(w, report.data + i * sizeof w, sizeof w);
        bool reported = number == 0 && now.types[6 * i] == WULDAZIN_STRUCT && r[2] & WULDAZIN_HOST_SHAREABLE;
        require(reported ? w[0] + w[1] == r[0] : (w[0] | w[1]) == 0, "words of the report");
        sums[0] += w[0], sums[1] += w[1];
    }
    if (told && output.bytes >= sizeof sums) require(!memcmp(output.data, sums, sizeof sums), "totals");
    take_back(&report, fits ? 16 * count : 0);
}

/* The check, over rows that hold other words, answers what judging did and leaves the same rows; by the other rule it answers the same, and
 * its rows differ in uniform verdicts alone. */
static void look_at_check(uint32_t capabilities, uint32_t rule, size_t length, uint32_t count) {
    static uint32_t row[ROWS_MOST];
    uint32_t found[4];
    memcpy(row, noise + below(1024), 4 * length);
    wuldazin_check(now.types, now.types_length, now.members, now.members_length, capabilities, rule, row, length, found, 4);
    require(answer.bytes < sizeof found || !memcmp(answer.data, found, sizeof found), "the check answers otherwise");
    require(!memcmp(rows.data, row, 56 * count), "the check leaves other rows");
    if (rule > WULDAZIN_NEWER) return;
    wuldazin_check(now.types, now.types_length, now.members, now.members_length, capabilities, 1 - rule, row, length, found, 4);
    require(answer.bytes < sizeof found || !memcmp(answer.data, found, sizeof found), "the other rule answers otherwise");
    for (uint32_t i = 0; i < count; i++) {
        memcpy(row + 14 * i + WULDAZIN_ROW_UNIFORM, rows.data + 56 * i + 4 * WULDAZIN_ROW_UNIFORM, 20);
    }
    require(!memcmp(rows.data, row, 56 * count), "the other rule changes more than uniform verdicts");
}

/* ---- three words for each type */
/* The place lookup, with a row for each type: its answer, its place, and the words of each type in the lent scratch. */
static void look_at_place(uint32_t capabilities, uint32_t ty, const uint32_t *list, size_t length, uint64_t *place, uint32_t *found) {
    static uint32_t row[ROWS_MOST];
    uint32_t zeros[3] = {0, 0, 0}, count = now.types_length / 6;
    wuldazin_place(now.types, now.types_length, now.members, now.members_length, capabilities, WULDAZIN_OLDER, row, ROWS_MOST, ty, list, length,
                   place, 2, found, 4);
    bool kept = found[0] == 0 || found[0] == 26;
    for (uint32_t i = 0; i < count; i++) require(!memcmp(rows.data + 12 * i, kept ? row + 14 * i : zeros, 12), "words of a type");
}

/* One place: the answer, the place and the words are those of the place lookup. */
static void short_call(size_t answer_length, size_t output_length, uint32_t capabilities, bool fits) {
    static uint32_t list[STEPS_MOST];
    uint32_t ty = type_number(), count = now.types_length / 6, found[4];
    uint64_t place[2] = {0, 0};
    size_t length = make_steps(list, ty);
    const uint32_t *s = lend(&steps, list, 4 * length);
    uint64_t *o = lend(&output, noise + below(1024), 8 * output_length);
    wuldazin_place_short((uint32_t *)types.data, now.types_length, (uint32_t *)members.data, now.members_length, capabilities, (uint32_t *)rows.data,
                         rows.bytes / 4, ty, s, length, o, output_length, (uint32_t *)answer.data, answer_length);
    uint32_t number = number_of(fits, count);
    if (fits) {
        look_at_place(capabilities, ty, list, length, place, found);
        require(number == UNANSWERED || !memcmp(answer.data, found, 16), "the place lookup answers otherwise");
    }
    require(output_length < 2 || !memcmp(output.data, place, 16), "place");
    take_back(&output, output_length < 2 ? 0 : 16);
    take_back(&steps, 0);
}

/* Many places: each run is answered as alone; a run cut short or too few words are 1. */
static void places_call(uint32_t capabilities, bool fits) {
    static uint32_t list[RUNS_MOST];
    uint32_t starts[RUNS_MOST], runs = 0, count = now.types_length / 6, found[4];
    size_t length = 0, at = 0;
    for (uint32_t n = below(RUNS + 1); n > 0; n--) {
        list[length] = type_number();
        list[length + 1] = make_steps(list + length + 2, list[length]);
        length += 2 + list[length + 1];
    }
    if (below(8) == 0) length = below(length + 1);
    if (below(8) == 0 && length) list[below(length)] = wild();
    for (; at < length && length - at >= 2 && list[at + 1] <= length - at - 2; at += 2 + (size_t)list[at + 1]) starts[runs++] = at;
    size_t room = below(8) ? 2 * runs + (below(2) ? 0 : below(5)) : below(2 * runs + 1);
    if (room > REPORT_MOST) room = REPORT_MOST;
    fits = fits && at == length && room / 2 >= runs;
    const uint32_t *s = lend(&steps, list, 4 * length);
    uint64_t *p = lend(&report, noise + below(1024), 8 * room);
    wuldazin_places((uint32_t *)types.data, now.types_length, (uint32_t *)members.data, now.members_length, capabilities, (uint32_t *)rows.data,
                    rows.bytes / 4, s, length, p, room, (uint32_t *)answer.data, answer.bytes / 4);
    uint32_t number = number_of(fits, count);
    for (uint32_t i = 0; fits && i < runs; i++) {
        uint64_t place[2], none[2] = {UINT64_MAX, UINT64_MAX};
        const uint32_t *run = list + starts[i];
        look_at_place(capabilities, run[0], run + 2, run[1], place, found);
        require(!memcmp(report.data + 16 * i, found[0] ? none : place, 16), "place of a run");
        require(number == UNANSWERED || found[0] == 26 || !memcmp(answer.data, found, 16), "the place lookup answers otherwise");
        require(found[0] != 26 || number == 0 || number == UNANSWERED, "a run without a place refuses the call");
    }
    take_back(&report, fits ? 16 * runs : 0);
    take_back(&steps, 0);
    take_back(&rows, fits ? 12 * count : 0);
}

/* Tables, a scratch that is too short, exact or longer, and an answer. */
static void three_words_call(size_t answer_length, size_t output_length) {
    make_tables();
    size_t tl = now.types_length, ml = now.members_length, needed = 3 * (tl / 6);
    size_t length = below(8) ? needed + (below(2) ? 0 : below(40)) : below(needed + 1);
    uint32_t capabilities = capability_word();
    bool fits = tl % 6 == 0 && tl <= 6 * 1024 && ml % WULDAZIN_MEMBER_WORDS == 0 && ml <= WULDAZIN_MEMBER_WORDS * 4096 && length >= needed
        && capabilities <= WULDAZIN_ALL_CAPABILITIES;
    lend(&types, now.types, 4 * tl), lend(&members, now.members, 4 * ml);
    lend(&rows, noise + below(1024), 4 * length), lend(&answer, noise + below(1024), 4 * answer_length);
    if (door == SHORT) {
        short_call(answer_length, output_length, capabilities, fits);
        take_back(&rows, fits ? 4 * needed : 0);
    } else {
        places_call(capabilities, fits);
    }
    take_back(&answer, answer_length < 4 ? 0 : 16);
    take_back(&types, 0);
    take_back(&members, 0);
}

/* ---- modules */
static uint32_t *put(uint32_t *w, uint32_t opcode, uint32_t count, const uint32_t *operands) {
    *w++ = count << 16 | opcode;
    for (uint32_t i = 1; i < count; i++) *w++ = operands[i - 1];
    return w;
}

/* One type, with its decorations before it: an id is a type's number plus one, that of a constant 1000 more. */
static uint32_t *put_type(uint32_t *w, uint32_t id) {
    uint32_t base = id > 1 && below(16) ? 1 + below(id - 1) : below(id + 2), n = 2 + below(below(8) ? 3 : 5);
    switch (below(9)) {
    case 0: return put(w, 20, 2, (uint32_t[]){id});
    case 1: return put(w, 21, 4, (uint32_t[]){id, 8u << below(below(8) ? 4 : 6), below(below(8) ? 2 : 3)});
    case 2: return put(w, 22, below(16) ? 3 : 4, (uint32_t[]){id, 8u << below(4), 0});
    case 3: return put(w, 23, 4, (uint32_t[]){id, base, n});
    case 4: return put(w, 24, 4, (uint32_t[]){id, base, n});
    case 5:
        w = put(w, 71, 4, (uint32_t[]){id, 6, below(8) ? 16 : wild()});
        w = put(w, 43, 4, (uint32_t[]){base, 1000 + id, wild()});
        return put(w, 28, 4, (uint32_t[]){id, base, 1000 + 1 + below(id)});
    case 6:
        if (below(8)) w = put(w, 71, 4, (uint32_t[]){id, 6, wild()});
        return put(w, 29, 3, (uint32_t[]){id, base});
    case 7: return put(w, 19 + below(20), 2, (uint32_t[]){id});
    default: {
        uint32_t members[10] = {id}, count = below(6);
        for (uint32_t j = 0; j < count; j++) {
            w = put(w, 72, 5, (uint32_t[]){id, j, below(32) ? 35 : 7, below(8) ? 16 * j : wild()});
            if (below(16) == 0) w = put(w, 72, 5, (uint32_t[]){id, j, 7, 16});
            members[1 + j] = id > 1 ? 1 + below(id - 1) : 1;
        }
        return put(w, 30, 2 + count, members);
    }
    }
}

/* A module, most of it in order; or any words. */
static size_t make_module(uint32_t *list) {
    size_t length = any_length(STEPS_MOST);
    if (below(8) == 0) {
        for (size_t i = 0; i < length; i++) list[i] = i ? wild() : 0x07230203;
        return length;
    }
    uint32_t *w = list, id = 0, types = below(below(4) ? 8 : 60);
    for (int i = 0; i < 5; i++) *w++ = i ? wild() : 0x07230203;
    while (id < types && w < list + STEPS_MOST - 100) w = put_type(w, ++id);
    length = w - list;
    if (below(3) == 0) list[below(length)] = wild();
    if (below(8) == 0) length = below(length + 1);
    return length;
}

/* Refused: zeros in both tables. Accepted: no more records than there is room for, and the rest as it was. */
static void spirv_call(size_t answer_length, size_t counts_length) {
    static uint32_t list[STEPS_MOST];
    size_t length = make_module(list), tl = below(4) ? 600 : any_length(TYPES_MOST), ml = below(4) ? 600 : any_length(MEMBERS_MOST);
    const uint32_t *w = lend(&steps, list, 4 * length);
    uint32_t *t = lend(&types, noise + below(1024), 4 * tl), *m = lend(&members, noise + below(1024), 4 * ml);
    uint32_t *c = lend(&output, noise + below(1024), 4 * counts_length), *a = lend(&answer, noise + below(1024), 4 * answer_length);
    uint32_t found[2] = {0, 0}, all = 0;
    wuldazin_read_spirv(w, length, t, tl, m, ml, c, counts_length, a, answer_length);
    if (counts_length >= 2) memcpy(found, output.data, sizeof found);
    if (answer_length >= 4) {
        memcpy(&all, answer.data, 4);
        uint32_t number = number_of(all != 1, 0);
        require(number <= 1 || (number >= 28 && number <= 30), "number of another door");
        if (number) {
            for (size_t i = 0; i < tl; i++) require(t[i] == 0, "a type word beside a refusal");
            for (size_t i = 0; i < ml; i++) require(m[i] == 0, "a member word beside a refusal");
            require((found[0] | found[1]) == 0, "counts beside a refusal");
        }
        require(found[0] <= tl / 6 && found[0] <= 1024 && found[1] <= ml / 4 && found[1] <= 4096, "more records than there is room for");
        bool told = !number && counts_length >= 2;
        take_back(&types, told ? 24 * found[0] : 4 * tl);
        take_back(&members, told ? 16 * found[1] : 4 * ml);
    } else {
        unanswered++;
        take_back(&types, 4 * tl);
        take_back(&members, 4 * ml);
    }
    take_back(&steps, 0);
    take_back(&output, counts_length < 2 ? 0 : 8);
    take_back(&answer, answer_length < 4 ? 0 : 16);
}

/* A text of pieces that are often in place, then mostly some damage. */
static size_t make_text(char *text, size_t most) {
    static const char *const pieces[] = {"struct A{a:f32}", "struct B{", "b:u32,", "@align(16)", "@size(32)", "c:vec3<f32>,", "d:array<B,4>", "e:array<",
                                         "mat4x3<f16>",     ">",         "}",      ";",          "//x\n",      "/*y*/",         ":",            ",",
                                         "struct ",         "A",         "{",      "f:bool}",    "0",          "4294967296",    "_",            "g:A}"};
    size_t length = 0, count = below(24);
    if (below(2)) length += sprintf(text, "struct S{m:vec2<f32>,n:array<i32,%u>}", below(9));
    for (size_t i = 0; i < count && length + 64 < most; i++) length += sprintf(text + length, "%s", pieces[below(sizeof pieces / sizeof *pieces)]);
    for (uint32_t i = below(3); i && length; i--) text[below(length)] = below(4) ? 32 + below(96) : below(256);
    return length;
}

static void wgsl_call(size_t answer_length, size_t counts_length) {
    static char text[4096];
    size_t length = make_text(text, sizeof text);
    size_t tl = below(3) ? 6 * below(200) + below(6) : below(40), ml = below(3) ? WULDAZIN_MEMBER_WORDS * below(200) + below(4) : below(20);
    uint8_t *s = lend(&steps, text, length);
    uint32_t *t = lend(&types, noise + below(1024), 4 * tl), *m = lend(&members, noise + below(1024), 4 * ml);
    uint32_t *counts = lend(&output, noise + below(1024), 4 * counts_length), *a = lend(&answer, noise + below(1024), 4 * answer_length);
    wuldazin_read_wgsl(s, length, t, tl, m, ml, counts, counts_length, a, answer_length);
    uint32_t number = UNANSWERED, found[2] = {0, 0};
    if (answer_length >= 4) {
        number = a[0];
        require(number == 0 || number == 1 || (number >= 31 && number <= 33), "number of a text");
        require((a[1] | a[2] | a[3]) == 0, "words beside a text's number");
        numbers[number]++;
    } else
        unanswered++;
    if (counts_length >= 2) memcpy(found, output.data, sizeof found);
    require(6 * (size_t)found[0] <= tl && WULDAZIN_MEMBER_WORDS * (size_t)found[1] <= ml, "more records than there is room for");
    bool refused = number != 0 && number != UNANSWERED, told = number == 0 && counts_length >= 2;
    require(!refused || (found[0] | found[1]) == 0, "counts of a refused text");
    for (size_t i = 0; refused && i < tl; i++) require(t[i] == 0, "type words of a refused text");
    for (size_t i = 0; refused && i < ml; i++) require(m[i] == 0, "member words of a refused text");
    take_back(&types, told ? 24 * (size_t)found[0] : 4 * tl);
    take_back(&members, told ? 4 * WULDAZIN_MEMBER_WORDS * (size_t)found[1] : 4 * ml);
    take_back(&steps, 0);
    take_back(&output, counts_length < 2 ? 0 : 8);
    take_back(&answer, answer_length < 4 ? 0 : 16);
}

/* Each place has a member of its own, of the wanted type, and the arena with the struct is accepted with the same rows. */
static void look_at_order(const uint32_t *t, uint32_t n, const uint32_t *m, uint32_t in_use, const uint32_t *list, uint32_t k, uint32_t span,
                          const uint32_t *found, uint32_t capabilities, uint32_t rule) {
    static uint32_t own[ROWS_MOST];
    uint32_t a[4], seen_places = 0;
    const uint32_t *r = t + 6 * n, *row = m + WULDAZIN_MEMBER_WORDS * in_use;
    require(r[0] == 8 && r[1] == in_use && r[2] == k && r[3] <= span && (r[4] | r[5]) == 0, "record of an order");
    if (found) require(found[0] == n && found[1] == r[3], "words of an order");
    for (uint32_t j = 0; j < WULDAZIN_MOST_GIVEN; j++) {
        if (found) require(j < k ? found[2 + j] < k : found[2 + j] == 0, "place of an order");
        if (j >= k) continue;
        if (found) seen_places |= 1u << found[2 + j];
        if (found) require(row[4 * j] == list[found[2 + j]], "type at a place");
        require((row[4 * j + 2] | row[4 * j + 3]) == 0, "location or blend source of an order");
    }
    if (found) require(seen_places == (1u << k) - 1, "member at two places");
    wuldazin_check(t, 6 * (n + 1), m, WULDAZIN_MEMBER_WORDS * (in_use + k), capabilities, rule, own, 14 * (n + 1), a, 4);
    require(a[0] == 0 && !memcmp(own, rows.data, 56 * (n + 1)), "rows of the arena with an order");
}

/* Tables with room behind the records in use, mostly enough. */
static void order_call(size_t answer_length) {
    static uint32_t list[16];
    make_tables();
    uint32_t n = now.types_length / 6, in_use = now.members_length / WULDAZIN_MEMBER_WORDS, k = below(16) ? 1 + below(7) : below(10);
    size_t tl = 6 * (n + 1) + (below(4) ? 0 : below(12)), ml = WULDAZIN_MEMBER_WORDS * (in_use + k) + (below(4) ? 0 : below(12));
    size_t rl = 14 * (n + 1) + (below(4) ? 0 : below(30)), fl = below(8) ? WULDAZIN_FOUND_WORDS + below(3) : below(WULDAZIN_FOUND_WORDS);
    if (below(16) == 0) tl -= 1 + below(6);
    if (below(16) == 0) ml -= ml ? 1 : 0;
    if (below(16) == 0) rl -= 1 + below(14);
    if (tl > TYPES_MOST) tl = TYPES_MOST;
    if (ml > MEMBERS_MOST) ml = MEMBERS_MOST;
    if (rl > ROWS_MOST) rl = ROWS_MOST;
    for (size_t i = 6 * (size_t)n; i < TYPES_MOST; i++) now.types[i] = noise[i];
    for (size_t i = WULDAZIN_MEMBER_WORDS * (size_t)in_use; i < MEMBERS_MOST; i++) now.members[i] = noise[i];
    for (uint32_t i = 0; i < 16; i++) list[i] = n && below(32) ? below(n) : wild();
    if (below(64) == 0) n = wild();
    if (below(64) == 0) in_use = wild();
    uint32_t capabilities = capability_word(), rule = rule_word(), span = below(3) ? below(400) : wild();
    uint32_t *t = lend(&types, now.types, 4 * tl), *m = lend(&members, now.members, 4 * ml), *r = lend(&rows, noise + below(1024), 4 * rl);
    uint32_t *f = lend(&report, noise + below(1024), 4 * fl), *a = lend(&answer, noise + below(1024), 4 * answer_length);
    const uint32_t *w = lend(&steps, list, 4 * k);
    wuldazin_order(t, tl, n, m, ml, in_use, capabilities, rule, r, rl, w, k, span, f, fl, a, answer_length);
    bool room = k <= 7 && n < 1024 && 6 * ((size_t)n + 1) <= tl && (size_t)in_use + k <= 4096 && WULDAZIN_MEMBER_WORDS * ((size_t)in_use + k) <= ml && 14 * ((size_t)n + 1) <= rl;
    room = room && capabilities <= WULDAZIN_ALL_CAPABILITIES && rule <= WULDAZIN_NEWER;
    uint32_t number = UNANSWERED, ty = 0, all = 0;
    if (answer_length >= 4) number = a[0], ty = a[1];
    else unanswered++;
    for (size_t i = 0; i < fl && i < WULDAZIN_FOUND_WORDS; i++) all |= f[i];
    if (number != UNANSWERED) {
        require(number <= 24 || number == 34 || number == 35, "number of an order");
        require((number == 1) == !room, "number 1 given or kept back wrongly");
        require(number == 0 || fl < WULDAZIN_FOUND_WORDS || all == 0, "words beside a refusal");
        numbers[number]++;
    }
    size_t own = number != 0 && number != UNANSWERED ? 0 : room; /* records written */
    bool passed_on = number == 21 && ty == n;
    if (number == 0) look_at_order(t, n, m, in_use, list, k, span, fl < WULDAZIN_FOUND_WORDS ? NULL : f, capabilities, rule);
    if (passed_on) for (size_t i = 0; i < 14 * ((size_t)n + 1); i++) require(r[i] == 0, "rows of a struct that is refused");
    if (own) require(!memcmp(t, types.before, 24 * (size_t)n) && !memcmp(m, members.before, 16 * (size_t)in_use), "records in use changed");
    take_back(&types, own ? 24 * ((size_t)n + 1) : 0);
    take_back(&members, own ? 16 * ((size_t)in_use + k) : 0);
    take_back(&rows, !room ? 0 : own || passed_on ? 56 * ((size_t)n + 1) : 56 * (size_t)n);
    take_back(&report, fl < WULDAZIN_FOUND_WORDS ? 0 : 4 * WULDAZIN_FOUND_WORDS);
    take_back(&answer, answer_length < 4 ? 0 : 16);
    take_back(&steps, 0);
}

static void one_call(void) {
    static uint32_t list[STEPS_MOST];
    static const unsigned char choice[] = {LAYOUT, JUDGE, JUDGE, CHECK,  CHECK,  RANGE,  SLOTS,    SLOTS, SLOTS, CONTAINS, DIFFERENCE, UNION, START,
                                           SET,    SET,   CHOOSE, CHOOSE, CHOOSE, DISPATCH, PLACE, PLACE, PLACE, SHORT, SHORT, PLACES, PLACES, REPORT,   REPORT,     PLAIN, SPIRV, SPIRV, SPIRV, WGSL, WGSL, ORDER, ORDER, MEMBERS};
    size_t answer_length = below(16) ? 4 + below(ANSWER_MOST - 3) : below(4), output_length = below(OUTPUT_MOST + 1);
    uint64_t out[2] = {0, 0};
    door = choice[below(sizeof choice)];
    if (door >= START && door <= DISPATCH && below(8)) output_length = 3 + below(OUTPUT_MOST - 2);
    if (door == CONTAINS || door == DIFFERENCE || door == UNION) {
        mask_call();
        doors[door]++;
        return;
    }
    if (door == PLAIN) {
        plain_call(answer_length, output_length);
        doors[door]++;
        return;
    }
    if (door == SPIRV) {
        spirv_call(answer_length, output_length);
        doors[door]++;
        return;
    }
    if (door == WGSL) {
        wgsl_call(answer_length, output_length);
        doors[door]++;
        return;
    }
    if (door == ORDER) {
        order_call(answer_length);
        doors[door]++;
        return;
    }
    if (door == SHORT || door == PLACES) {
        three_words_call(answer_length, output_length);
        doors[door]++;
        return;
    }
    if (door == START || door == SET || door == DISPATCH) {
        pass_call(answer_length, output_length);
        doors[door]++;
        return;
    }
    if (door == RANGE) {
        uint64_t *mask = lend(&output, noise + below(1024), 8 * output_length);
        uint32_t *a = lend(&answer, noise + below(1024), 4 * answer_length);
        uint32_t offset = below(2) ? below(300) : wild(), size = below(2) ? below(300) : wild();
        wuldazin_range(offset, size, mask, output_length, a, answer_length);
        doors[door]++;
        bool past = size && (uint64_t)offset + size > 256;
        uint32_t number = number_of(true, 0);
        require(number == UNANSWERED || number == (past ? 25 : 0), "range");
        size_t written = words_written(output_length);
        if (!past) range_masks(offset, size, out);
        require(!memcmp(output.data, out, 8 * written), "masks of a range");
        take_back(&output, 8 * written);
        take_back(&answer, answer_length < 4 ? 0 : 16);
        return;
    }

    make_tables();
    uint32_t ty = type_number(), capabilities = capability_word(), rule = rule_word(), count = now.types_length / 6;
    types_seen[now.types_length] = members_seen[now.members_length] = true;
    size_t tl = now.types_length, ml = now.members_length, rl = rows_length(), sl = door == PLACE ? make_steps(list, ty) : 0;
    size_t pl = door == REPORT ? report_length() : 0;
    bool fits = tl % 6 == 0 && tl <= 6 * 1024 && ml % WULDAZIN_MEMBER_WORDS == 0 && ml <= WULDAZIN_MEMBER_WORDS * 4096 && rl / 14 >= count;
    if (door != LAYOUT) fits = fits && capabilities <= WULDAZIN_ALL_CAPABILITIES && rule <= WULDAZIN_NEWER;
    if (door == REPORT) fits = fits && pl / 2 >= count;
    if (door == CHOOSE) fits = fits && output_length >= 3;
    bool has_rows = door != MEMBERS, has_output = door == SLOTS || door == CHOOSE || door == PLACE || door == REPORT || door == MEMBERS;

    const uint32_t *t = lend(&types, now.types, 4 * tl), *m = lend(&members, now.members, 4 * ml), *s = NULL;
    uint32_t *r = NULL, *a = NULL;
    uint64_t *o = NULL, *p = NULL;
    if (has_rows) r = lend(&rows, noise + below(1024), 4 * rl), a = lend(&answer, noise + below(1024), 4 * answer_length);
    if (has_output) o = lend(&output, noise + below(1024), 8 * output_length);
    if (door == PLACE) s = lend(&steps, list, 4 * sl);
    if (door == REPORT) p = lend(&report, noise + below(1024), 8 * pl);
    switch (door) {
    case LAYOUT: wuldazin_layout(t, tl, m, ml, r, rl, a, answer_length); break;
    case JUDGE: wuldazin_judge(t, tl, m, ml, capabilities, rule, r, rl, a, answer_length); break;
    case CHECK: wuldazin_check(t, tl, m, ml, capabilities, rule, r, rl, a, answer_length); break;
    case SLOTS: wuldazin_slots(t, tl, m, ml, capabilities, rule, r, rl, ty, wild(), o, output_length, a, answer_length); break;
    case CHOOSE: wuldazin_pass_choose(t, tl, m, ml, capabilities, rule, r, rl, ty, o, output_length, a, answer_length); break;
    case PLACE: wuldazin_place(t, tl, m, ml, capabilities, rule, r, rl, ty, s, sl, o, output_length, a, answer_length); break;
    case REPORT: wuldazin_report(t, tl, m, ml, capabilities, rule, r, rl, p, pl, o, output_length, a, answer_length); break;
    case MEMBERS: wuldazin_members(t, tl, m, ml, ty, o, output_length);
    }
    doors[door]++;

    uint32_t number = UNANSWERED;
    if (has_rows) {
        number = number_of(fits, count);
        uint32_t last = door == LAYOUT ? 7 : door == JUDGE || door == CHECK ? 24 : door == REPORT ? 27 : 26;
        bool barred = number == 37 && door == CHOOSE, blend = number == 34 && door != LAYOUT;
        require(number == UNANSWERED || number <= last || barred || blend, "number of another door");
        require(number != 25 || door == SLOTS || door == CHOOSE, "number of another door");
        require(number != 26 || door != REPORT, "number of another door");
        if (fits) look_at_rows(number, count);
        if (door == JUDGE) look_at_check(capabilities, rule, rl, fits ? count : 0);
        if (door == REPORT) look_at_report(number, fits, count);
        take_back(&rows, fits ? 56 * count : 0);
        take_back(&answer, answer_length < 4 ? 0 : 16);
    }
    if (door == CHOOSE) look_at_choice(number, capabilities, rule, ty);
    else if (has_output) {
        size_t written = words_written(output_length);
        memcpy(out, output.data, 8 * written);
        if (door == MEMBERS)
            require(out[0] % WULDAZIN_MEMBER_WORDS == 0 && out[1] % WULDAZIN_MEMBER_WORDS == 0 && out[0] <= ml && out[1] <= ml - out[0], "part outside the table");
        else if (number >= 1 && number <= LAST_NUMBER) require((out[0] | out[1]) == 0, "words beside a refusal");
        else if (door == SLOTS && written == 2) require((out[1] & ~out[0]) == 0, "slots covered in part and not touched");
        else if (written && door == PLACE && number == 0) look_at_leaf(out[1], list, sl);
        take_back(&output, 8 * written);
    }
    if (door == PLACE) take_back(&steps, 0);
    take_back(&types, 0);
    take_back(&members, 0);
}

static size_t seen(const bool *lengths, size_t count) {
    size_t sum = 0;
    for (size_t i = 0; i < count; i++) sum += lengths[i];
    return sum;
}

int main(int words, char **word_list) {
    uint64_t count = words > 1 ? strtoull(word_list[1], NULL, 10) : 10000000, first = 0;
    if (words > 2) seed = strtoull(word_list[2], NULL, 10);
    if (words > 3) first = strtoull(word_list[3], NULL, 10);
    __sanitizer_set_death_callback(say_where);
    build(&types, 4 * TYPES_MOST);
    build(&members, 4 * MEMBERS_MOST);
    build(&rows, 4 * ROWS_MOST);
    build(&steps, 4 * RUNS_MOST);
    build(&report, 8 * REPORT_MOST);
    build(&output, 8 * OUTPUT_MOST);
    build(&answer, 4 * ANSWER_MOST);
    state = seed;
    for (size_t i = 0; i < sizeof noise / sizeof *noise; i++) noise[i] = word();
    for (size_t i = 0; i < GUARD; i++) guard[i] = word();
    make_templates();

    struct timespec start, end;
    clock_gettime(CLOCK_MONOTONIC, &start);
    for (call = first; call < first + count; call++) {
        state = (seed * 0xbf58476d1ce4e5b9) ^ (call * 0xd1342543de82ef95);
        one_call();
    }
    clock_gettime(CLOCK_MONOTONIC, &end);
    double seconds = (end.tv_sec - start.tv_sec) + 1e-9 * (end.tv_nsec - start.tv_nsec);

    for (int d = 0; d < DOORS; d++) printf("%-10s %9llu calls\n", door_names[d], (unsigned long long)doors[d]);
    for (int n = 0; n <= LAST_NUMBER; n++) printf("number %2d %9llu\n", n, (unsigned long long)numbers[n]);
    for (int d = 1; d <= 6; d++) printf("number 34, detail %d %9llu\n", d, (unsigned long long)blend_details[d]);
    printf("answer too short %llu\n", (unsigned long long)unanswered);
    printf("places that are columns %llu\n", (unsigned long long)columns);
    printf("lengths met: types %zu of %d, members %zu of %d\n", seen(types_seen, TYPES_MOST + 1), TYPES_MOST + 1,
           seen(members_seen, MEMBERS_MOST + 1), MEMBERS_MOST + 1);
    printf("%.1f s, %.0f calls a second\n%llu calls, 0 faults\n", seconds, count / seconds, (unsigned long long)count);
    return 0;
}
