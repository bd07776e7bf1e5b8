/* Type tables of naga 30.0.1: layouts, verdicts, immediate slots, passes tried with them, places and a report of bytes; plain types
 * from a table; type tables from SPIR-V; and the first order of members that has at most a span.
 *
 * Link with libdoors.a (x86-64 Linux). Nothing is kept between calls, nothing is allocated.
 *
 * Buffers. Each is a pointer and a length in words, 32 or 64 bits by the pointer's type.
 *  - A pointer is not null and is aligned for its word, at length 0 too: hand any valid object, as &dummy.
 *  - A length is the number of words that may be read (const) or read and written (the others).
 *  - A buffer that is written overlaps no other buffer of the same call.
 *  - Lengths and words may otherwise be anything: they are judged, never trusted.
 *
 * Tables. types: WULDAZIN_TYPE_WORDS words a type, the kind first, unnamed words 0.
 * members: WULDAZIN_MEMBER_WORDS words a member, its type, its offset, its location and its blend source, the last two as value plus one,
 * 0 for none; structs may share rows.
 *
 * rule, the word after the capability word, says by which rule uniform verdicts are worked out: WULDAZIN_OLDER, naga 30.0.1's, with arrays
 * and structs aligned to 16, or WULDAZIN_NEWER, WGSL's uniform_buffer_standard_layout, by the storage rules; a struct with a runtime-sized
 * member has no uniform verdict under either. Another word is number 1. The answer, and every word of a row but the five of the uniform
 * verdict, are the same under both.
 *
 * rows takes WULDAZIN_ROW_WORDS words a type; n types need n * WULDAZIN_ROW_WORDS words, and no word after them is ever written.
 *  - accepted: the row of each type. Also with numbers 25 to 27 and 37, which come after the arena was accepted, and with those that
 *    wuldazin_order has for the types it is given. Accepted does not mean usable in
 *    an address space: before a buffer is filled, look at the verdict of its type. A vec3 at offset 4 is accepted, with storage code 3.
 *  - number 1: untouched.
 *  - numbers 2 to 24 and 34: n * WULDAZIN_ROW_WORDS zeros.
 *
 * scratch takes WULDAZIN_SHORT_WORDS words a type, the first three of a row: size, alignment, flags. It is filled, zeroed and left as rows are.
 * The calls that take it make no verdict, and take no rule.
 *
 * answer takes WULDAZIN_ANSWER_WORDS words: number, type, member, detail; all 0 when accepted. Numbers 1, 25, 26, 28 to 33, 35 to 37, 2 of
 * wuldazin_plain and those that wuldazin_order has for the types it is given have zeros after the number. member is the position in the struct
 * for 6 and 17 to 21, else 0; detail is the missing
 * capability's bit for 8, what is wrong with a blend source for 34, else 0.
 *
 * mask takes WULDAZIN_MASK_WORDS words, bit k of each for slot k, bytes 4k to 4k + 3: the slots that are touched, then those that a part
 * covers only in part, one of their bytes and not all four. Zeros on a refusal. A buffer of one word gets the first mask alone.
 *
 * pass takes WULDAZIN_PASS_WORDS words: the slots set so far, the slots that the chosen pipeline's type needs, and whether a pipeline is
 * chosen, 0 or not. The host keeps them from call to call; any three words are a pass. An accepted step writes all three, 1 for a
 * pipeline; a refused one writes none. On a shorter buffer every step is refused with number 1, before everything else.
 *
 * An answer, place, totals, numbers, counts, missing, part or found buffer that is too short for its words is left as it was. Words after its own are left in every buffer.
 */
#ifndef WULDAZIN_H
#define WULDAZIN_H

#include <stdbool.h>
#include <stddef.h>
#include <stdint.h>

#ifdef __cplusplus
extern "C" {
#endif

enum {
    WULDAZIN_TYPE_WORDS = 6,
    WULDAZIN_MEMBER_WORDS = 4,
    WULDAZIN_ROW_WORDS = 14,
    WULDAZIN_SHORT_WORDS = 3,
    WULDAZIN_ANSWER_WORDS = 4,
    WULDAZIN_MASK_WORDS = 2,
    WULDAZIN_PLACE_WORDS = 2,
    WULDAZIN_REPORT_WORDS = 2,
    WULDAZIN_PASS_WORDS = 3,
    WULDAZIN_FOUND_WORDS = 9,
    WULDAZIN_MOST_GIVEN = 7,
    WULDAZIN_MOST_TYPES = 1024,
    WULDAZIN_MOST_MEMBERS = 4096,
    WULDAZIN_ALL_CAPABILITIES = 16383
};

/* The uniform rule. */
enum {
    WULDAZIN_OLDER = 0,
    WULDAZIN_NEWER = 1
};

/* Word 0 of a type; the words after it. */
enum {
    WULDAZIN_SCALAR = 0,                 /* scalar kind, width */
    WULDAZIN_VECTOR = 1,                 /* size 2 to 4, scalar kind, width */
    WULDAZIN_MATRIX = 2,                 /* columns 2 to 4, rows 2 to 4, scalar kind, width */
    WULDAZIN_COOPERATIVE_MATRIX = 3,     /* columns 8 or 16, rows 8 or 16, scalar kind, width, role 0 to 2 */
    WULDAZIN_ATOMIC = 4,                 /* scalar kind, width */
    WULDAZIN_POINTER = 5,                /* base, address space */
    WULDAZIN_VALUE_POINTER = 6,          /* scalar kind, width, address space */
    WULDAZIN_ARRAY = 7,                  /* base, form, count, stride */
    WULDAZIN_STRUCT = 8,                 /* first member, member count, span */
    WULDAZIN_IMAGE = 9,                  /* dimension, arrayed 0 or 1, class */
    WULDAZIN_SAMPLER = 10,               /* none */
    WULDAZIN_ACCELERATION_STRUCTURE = 11, /* vertex_return 0 or 1 */
    WULDAZIN_RAY_QUERY = 12,             /* vertex_return 0 or 1 */
    WULDAZIN_BINDING_ARRAY = 13          /* base, form, count */
};

/* Scalar kinds. */
enum {
    WULDAZIN_SINT = 0,
    WULDAZIN_UINT = 1,
    WULDAZIN_FLOAT = 2,
    WULDAZIN_BOOL = 3,
    WULDAZIN_ABSTRACT_INT = 4,
    WULDAZIN_ABSTRACT_FLOAT = 5
};

/* Forms of arrays and binding arrays. */
enum {
    WULDAZIN_CONSTANT = 0, /* count at least 1 */
    WULDAZIN_DYNAMIC = 1   /* count 0 */
};

/* Address spaces. */
enum {
    WULDAZIN_SPACE_FUNCTION = 0,
    WULDAZIN_SPACE_PRIVATE = 1,
    WULDAZIN_SPACE_WORK_GROUP = 2,
    WULDAZIN_SPACE_UNIFORM = 3,
    WULDAZIN_SPACE_STORAGE = 4,
    WULDAZIN_SPACE_HANDLE = 5,
    WULDAZIN_SPACE_IMMEDIATE = 6,
    WULDAZIN_SPACE_TASK_PAYLOAD = 7,
    WULDAZIN_SPACE_RAY_PAYLOAD = 8,
    WULDAZIN_SPACE_INCOMING_RAY_PAYLOAD = 9
};

/* Dimensions of an image. */
enum {
    WULDAZIN_DIMENSION_D1 = 0,
    WULDAZIN_DIMENSION_D2 = 1,
    WULDAZIN_DIMENSION_D3 = 2,
    WULDAZIN_DIMENSION_CUBE = 3
};

/* Classes of an image. */
enum {
    WULDAZIN_CLASS_SAMPLED = 0,
    WULDAZIN_CLASS_DEPTH = 1,
    WULDAZIN_CLASS_EXTERNAL = 2,
    WULDAZIN_CLASS_STORAGE = 3
};

/* Bits of the capability word. */
enum {
    WULDAZIN_FLOAT64 = 1 << 0,
    WULDAZIN_SHADER_FLOAT16 = 1 << 1,
    WULDAZIN_SHADER_INT16 = 1 << 2,
    WULDAZIN_SHADER_INT64 = 1 << 3,
    WULDAZIN_SHADER_FLOAT32_ATOMIC = 1 << 4,
    WULDAZIN_SHADER_INT64_ATOMIC_MIN_MAX = 1 << 5,
    WULDAZIN_SHADER_INT64_ATOMIC_ALL_OPS = 1 << 6,
    WULDAZIN_CAPABILITY_COOPERATIVE_MATRIX = 1 << 7,
    WULDAZIN_CUBE_ARRAY_TEXTURES = 1 << 8,
    WULDAZIN_TEXTURE_EXTERNAL = 1 << 9,
    WULDAZIN_CAPABILITY_RAY_QUERY = 1 << 10,
    WULDAZIN_RAY_TRACING_PIPELINE = 1 << 11,
    WULDAZIN_RAY_HIT_VERTEX_POSITION = 1 << 12,
    WULDAZIN_DUAL_SOURCE_BLENDING = 1 << 13
};

/* Words of a row. */
enum {
    WULDAZIN_ROW_SIZE = 0,
    WULDAZIN_ROW_ALIGNMENT = 1,
    WULDAZIN_ROW_FLAGS = 2,
    WULDAZIN_ROW_UNIFORM = 3,    /* five words: code, type, index, value, bound */
    WULDAZIN_ROW_STORAGE = 8,    /* five words, as above */
    WULDAZIN_ROW_IMMEDIATES = 13 /* 0, or 1 plus the kind of the 16-bit scalar that stands in the way */
};

/* Flags of a row. */
enum {
    WULDAZIN_DATA = 1,
    WULDAZIN_SIZED = 2,
    WULDAZIN_COPY = 4,
    WULDAZIN_IO_SHAREABLE = 8,
    WULDAZIN_HOST_SHAREABLE = 16,
    WULDAZIN_ARGUMENT = 32,
    WULDAZIN_CONSTRUCTIBLE = 64,
    WULDAZIN_CREATION_RESOLVED = 128
};

/* Codes of a verdict. */
enum {
    WULDAZIN_VERDICT_OK = 0, /* the second word is the alignment */
    WULDAZIN_VERDICT_ARRAY_STRIDE = 1,
    WULDAZIN_VERDICT_STRUCT_SPAN = 2,
    WULDAZIN_VERDICT_MEMBER_OFFSET = 3,
    WULDAZIN_VERDICT_MEMBER_OFFSET_AFTER_STRUCT = 4,
    WULDAZIN_VERDICT_UNSIZED_MEMBER = 5,
    WULDAZIN_VERDICT_NON_HOST_SHAREABLE = 6
};

/* Word 0 of an answer; wuldazin_meaning says what each stands for. */
enum {
    WULDAZIN_ACCEPTED = 0,
    WULDAZIN_TABLE_LENGTH = 1,
    WULDAZIN_FIELD = 2,
    WULDAZIN_BASE_OUTSIDE = 3,
    WULDAZIN_ARRAY_TOO_LARGE = 4,
    WULDAZIN_ELEMENT_NOT_EARLIER = 5,
    WULDAZIN_MEMBER_NOT_EARLIER = 6,
    WULDAZIN_WIDTH_NO_POWER = 7,
    WULDAZIN_CAPABILITY_MISSING = 8,
    WULDAZIN_WIDTH_INVALID = 9,
    WULDAZIN_ABSTRACT_SCALAR = 10,
    WULDAZIN_MATRIX_ELEMENT = 11,
    WULDAZIN_ATOMIC_WIDTH = 12,
    WULDAZIN_POINTER_BASE = 13,
    WULDAZIN_POINTER_TO_UNSIZED = 14,
    WULDAZIN_ARRAY_BASE = 15,
    WULDAZIN_EMPTY_STRUCT = 16,
    WULDAZIN_NOT_DATA = 17,
    WULDAZIN_MEMBER_OVERLAP = 18,
    WULDAZIN_MEMBER_OUT_OF_BOUNDS = 19,
    WULDAZIN_DYNAMIC_MEMBER = 20,
    WULDAZIN_STRUCT_SUM = 21,
    WULDAZIN_IMAGE_FORM = 22,
    WULDAZIN_BINDING_ARRAY_BASE = 23,
    WULDAZIN_BINDING_ARRAY_EXTERNAL = 24,
    WULDAZIN_SLOTS_PAST = 25,
    WULDAZIN_NO_SUCH_PLACE = 26,
    WULDAZIN_NARROW_STRIDE = 27,
    WULDAZIN_SPIRV_WORDS = 28,
    WULDAZIN_SPIRV_UNSUPPORTED = 29,
    WULDAZIN_SPIRV_UNSOUND = 30,
    WULDAZIN_TEXT_GRAMMAR = 31,
    WULDAZIN_TEXT_NAME = 32,
    WULDAZIN_TEXT_NUMBER = 33,
    WULDAZIN_BLEND_SOURCE = 34,
    WULDAZIN_NONE_FITS = 35,
    WULDAZIN_NOT_READY = 36,
    WULDAZIN_NO_IMMEDIATES = 37
};

/* Word 3 of an answer with WULDAZIN_BLEND_SOURCE. */
enum {
    WULDAZIN_BLEND_BAD_INDEX = 1,       /* a source above 1, or a location other than 0 with a source */
    WULDAZIN_BLEND_COLLISION = 2,       /* two members with one source */
    WULDAZIN_BLEND_OTHER_LOCATIONS = 3, /* beside both sources a member has a location alone */
    WULDAZIN_BLEND_TYPES_DIFFER = 4,    /* the two types are not the same, or structs */
    WULDAZIN_BLEND_NOT_SHAREABLE = 5,   /* their type is not IO-shareable */
    WULDAZIN_BLEND_ONE_MISSING = 6      /* one source alone */
};

/* A sentence for a message: what a number stands for. */
static inline const char *wuldazin_meaning(uint32_t number) {
    switch (number) {
    case WULDAZIN_ACCEPTED: return "accepted";
    case WULDAZIN_TABLE_LENGTH:
        return "a table is no whole number of records or too long, the rows, the scratch, the places, the report or the pass are too short, a run of steps is cut short, a module has more records than the tables admit, an order has more than seven types or no room for its struct, or a capability bit above 13 is set";
    case WULDAZIN_FIELD:
        return "a field lies outside its set, member rows reach past the table, a blend source has no location, or no plain type has that shape and width";
    case WULDAZIN_BASE_OUTSIDE: return "the base of a pointer or binding array lies outside the arena";
    case WULDAZIN_ARRAY_TOO_LARGE: return "an array's count or size is above 2,147,483,647";
    case WULDAZIN_ELEMENT_NOT_EARLIER: return "an array's element is no earlier type";
    case WULDAZIN_MEMBER_NOT_EARLIER: return "a struct's member is no earlier type";
    case WULDAZIN_WIDTH_NO_POWER: return "a width is no power of two";
    case WULDAZIN_CAPABILITY_MISSING: return "a capability is missing";
    case WULDAZIN_WIDTH_INVALID: return "a scalar has a width that its kind may not have";
    case WULDAZIN_ABSTRACT_SCALAR: return "a scalar is abstract";
    case WULDAZIN_MATRIX_ELEMENT: return "a matrix has elements that are no floats";
    case WULDAZIN_ATOMIC_WIDTH: return "an atomic has a scalar kind and width that no atomic may have";
    case WULDAZIN_POINTER_BASE: return "a pointer's base is no data";
    case WULDAZIN_POINTER_TO_UNSIZED: return "a pointer to an unsized type stands in another address space than Storage";
    case WULDAZIN_ARRAY_BASE: return "an array's base is a type that cannot be an element";
    case WULDAZIN_EMPTY_STRUCT: return "a struct has no members";
    case WULDAZIN_NOT_DATA: return "a member is no data, or a binding array's base is no earlier type";
    case WULDAZIN_MEMBER_OVERLAP: return "a member overlaps the one before";
    case WULDAZIN_MEMBER_OUT_OF_BOUNDS: return "a member ends past the struct's span";
    case WULDAZIN_DYNAMIC_MEMBER: return "a dynamic member is not the last, or no array";
    case WULDAZIN_STRUCT_SUM: return "a struct's sum or difference leaves 32 bits";
    case WULDAZIN_IMAGE_FORM: return "an image is arrayed and 3D, or external and arrayed or not 2D";
    case WULDAZIN_BINDING_ARRAY_BASE: return "a binding array's base is data and no struct";
    case WULDAZIN_BINDING_ARRAY_EXTERNAL: return "a binding array's base is an external image";
    case WULDAZIN_SLOTS_PAST: return "a nonempty part ends past byte 256, or an offset sum leaves 32 bits";
    case WULDAZIN_NO_SUCH_PLACE: return "no type has that number, or the steps lead to no place";
    case WULDAZIN_NARROW_STRIDE: return "a host-shareable struct reaches an array with a stride below its element's size";
    case WULDAZIN_SPIRV_WORDS:
        return "a SPIR-V header is short or has another magic number, or a word count is 0, past the end or too small";
    case WULDAZIN_SPIRV_UNSUPPORTED:
        return "a SPIR-V type that is not read is referred to, a width, a signedness, an encoding or a number of parts is not supported, or a matrix is stored otherwise";
    case WULDAZIN_SPIRV_UNSOUND:
        return "a SPIR-V id is missing, still to come, given twice or of the wrong sort, a size leaves 32 bits, or an Offset, an ArrayStride or an array's length is not in order";
    case WULDAZIN_TEXT_GRAMMAR: return "a text leaves the grammar, is too deep, or has a vector, matrix or atomic of no scalar";
    case WULDAZIN_TEXT_NAME: return "a type's name is unknown or repeated, or a member's name is repeated in its struct";
    case WULDAZIN_TEXT_NUMBER:
        return "an attribute is one that WGSL forbids, an array's count is 0, or a number or a placement is above 4,294,967,295";
    case WULDAZIN_BLEND_SOURCE: return "the blend sources of a struct's members are refused";
    case WULDAZIN_NONE_FITS: return "none of the allowed orders of the types has at most that span";
    case WULDAZIN_NOT_READY: return "a dispatch has no pipeline, or slots that it needs are not set";
    case WULDAZIN_NO_IMMEDIATES: return "a type's immediates word is not 0, or a range's offset or size is no multiple of 4";
    default: return "no number of an answer";
    }
}

/* Sizes and alignments alone: rows get size, alignment and twelve zeros a type. Numbers 1 to 7. It takes no capability word, for
 * hosts that do not know it yet. */
void wuldazin_layout(const uint32_t *types, size_t types_length,
                     const uint32_t *members, size_t members_length,
                     uint32_t *rows, size_t rows_length,
                     uint32_t *answer, size_t answer_length);

/* Judges an arena. Numbers 1 to 24 and 34. rows may hold anything, laid out or not: no word of it is read before it is written, and the
 * answer and the rows depend on the tables, the capability word, the rule and rows_length alone. Where capability word and rule are in
 * order, what wuldazin_layout refuses is refused with the same answer. So this is the whole check, and the fastest one: a host that has no use
 * for laid-out rows calls it and nothing else. */
void wuldazin_judge(const uint32_t *types, size_t types_length,
                    const uint32_t *members, size_t members_length,
                    uint32_t capabilities, uint32_t rule,
                    uint32_t *rows, size_t rows_length,
                    uint32_t *answer, size_t answer_length);

/* Tests the capability word and the rule, then does what wuldazin_layout and, where that accepts, wuldazin_judge do one after the other. The
 * answer and the rows are those of wuldazin_judge. Numbers 1 to 24 and 34. */
void wuldazin_check(const uint32_t *types, size_t types_length,
                    const uint32_t *members, size_t members_length,
                    uint32_t capabilities, uint32_t rule,
                    uint32_t *rows, size_t rows_length,
                    uint32_t *answer, size_t answer_length);

/* The immediate slots of the size bytes from offset on, which are one part. An empty one has none at any offset. Number 25. */
void wuldazin_range(uint32_t offset, uint32_t size,
                    uint64_t *mask, size_t mask_length,
                    uint32_t *answer, size_t answer_length);

/* The immediate slots of type ty that stands at offset. Judges the arena first. Numbers 1 to 26 and 34.
 * A part is what is no struct, arrays taken whole. Each mask has the slots of all parts: a slot of which two parts cover a half each is in
 * the second mask.
 * The walk goes over the members of each struct at most four times, however often other structs hold it. It recurses, at most once a
 * type, and keeps what it finds of each struct: 600 KB of stack. */
void wuldazin_slots(const uint32_t *types, size_t types_length,
                    const uint32_t *members, size_t members_length,
                    uint32_t capabilities, uint32_t rule,
                    uint32_t *rows, size_t rows_length,
                    uint32_t ty, uint32_t offset,
                    uint64_t *mask, size_t mask_length,
                    uint32_t *answer, size_t answer_length);

/* Whether every slot of other is one of mask. This call and the next two take masks as wuldazin_range and wuldazin_slots give them, the
 * first or the second; any 64 bits are a mask, and nothing is refused. */
bool wuldazin_contains(uint64_t mask, uint64_t other);

/* The slots of mask that are not in other. */
uint64_t wuldazin_difference(uint64_t mask, uint64_t other);

/* The slots of either. */
uint64_t wuldazin_union(uint64_t mask, uint64_t other);

/* Starts a pass: no slot set and no pipeline. A shorter buffer is left as it was. */
void wuldazin_pass_start(uint64_t *pass, size_t pass_length);

/* Sets the size bytes of immediates from offset on. An empty range sets nothing. Numbers 1, 37 and then 25, which is for a range that is
 * not empty and ends past byte 256. */
void wuldazin_pass_set(uint64_t *pass, size_t pass_length,
                       uint32_t offset, uint32_t size,
                       uint32_t *answer, size_t answer_length);

/* Chooses a pipeline by its immediate type, ty. The pass then needs the first mask of wuldazin_slots at offset 0, whatever becomes of the
 * tables; slots set before stay set. Judges the arena first. Numbers 1 to 24 and 34, then 26, 37 and 25. On a refusal the former pipeline stays.
 * What is said of time and stack at wuldazin_slots holds here too. */
void wuldazin_pass_choose(const uint32_t *types, size_t types_length,
                          const uint32_t *members, size_t members_length,
                          uint32_t capabilities, uint32_t rule,
                          uint32_t *rows, size_t rows_length,
                          uint32_t ty,
                          uint64_t *pass, size_t pass_length,
                          uint32_t *answer, size_t answer_length);

/* Accepted exactly when a pipeline is chosen and each slot that it needs is set. Changes no pass. Numbers 1 and 36.
 * missing: one word, the slots needed and not set; 0 where it is accepted, and 0 without a pipeline. */
void wuldazin_pass_dispatch(const uint64_t *pass, size_t pass_length,
                            uint64_t *missing, size_t missing_length,
                            uint32_t *answer, size_t answer_length);

/* The leaf that steps (member, element and column numbers) lead to from type start. Judges the arena first.
 * A matrix takes one further step, its column, and the leaf is that column: rows * width bytes. The column step, from one to the next,
 * is the matrix's alignment; the bytes between columns of three rows are in no leaf. Every other leaf is as long as its type's size.
 * place: two words, the leaf's first byte and its type, of a column the matrix's; zeros on a refusal. Numbers 1 to 24, 26 and 34. */
void wuldazin_place(const uint32_t *types, size_t types_length,
                    const uint32_t *members, size_t members_length,
                    uint32_t capabilities, uint32_t rule,
                    uint32_t *rows, size_t rows_length,
                    uint32_t start,
                    const uint32_t *steps, size_t steps_length,
                    uint64_t *place, size_t place_length,
                    uint32_t *answer, size_t answer_length);

/* The same by three words for each type: the answer and the place of wuldazin_place for the same tables, capabilities, start and steps. A scratch
 * of fewer words is number 1. Numbers 1 to 24, 26 and 34. */
void wuldazin_place_short(const uint32_t *types, size_t types_length,
                          const uint32_t *members, size_t members_length,
                          uint32_t capabilities,
                          uint32_t *scratch, size_t scratch_length,
                          uint32_t start,
                          const uint32_t *steps, size_t steps_length,
                          uint64_t *place, size_t place_length,
                          uint32_t *answer, size_t answer_length);

/* Many places with one judging. runs: one after the other, each its start, how many steps it has, and the steps. Numbers 1 to 24 and 34; a run
 * that is cut short, or places for fewer runs than there are, is number 1.
 * places takes WULDAZIN_PLACE_WORDS words for each run, what wuldazin_place_short answers for it: the leaf's first byte and its type; both
 * 2^64 - 1 where there is no place.
 *  - accepted: the words of each run. That a run has no place refuses no other.
 *  - number 1: untouched.
 *  - every other number: 2^64 - 1 in all words of the runs.
 * No earlier call is trusted: the arena is judged in this one. */
void wuldazin_places(const uint32_t *types, size_t types_length,
                     const uint32_t *members, size_t members_length,
                     uint32_t capabilities,
                     uint32_t *scratch, size_t scratch_length,
                     const uint32_t *runs, size_t runs_length,
                     uint64_t *places, size_t places_length,
                     uint32_t *answer, size_t answer_length);

/* The bytes that lie in leaves and those of the span that lie in none, for each struct with WULDAZIN_HOST_SHAREABLE. A runtime array
 * counts as one element. Judges the arena first. Numbers 1 to 24, 27 and 34.
 * report takes WULDAZIN_REPORT_WORDS words a type, bytes carried and bytes wasted; n types need n * WULDAZIN_REPORT_WORDS words, and no
 * word after them is ever written.
 *  - accepted: the words of each type, zeros for a type that is no such struct.
 *  - number 1: untouched.
 *  - every other number: n * WULDAZIN_REPORT_WORDS zeros.
 * totals: two words, the bytes carried and the bytes wasted over all such structs; zeros on a refusal. A struct in a struct has its
 * own share in them. The time is linear in types and members. */
void wuldazin_report(const uint32_t *types, size_t types_length,
                     const uint32_t *members, size_t members_length,
                     uint32_t capabilities, uint32_t rule,
                     uint32_t *rows, size_t rows_length,
                     uint64_t *report, size_t report_length,
                     uint64_t *totals, size_t totals_length,
                     uint32_t *answer, size_t answer_length);

/* Size, alignment and column step of a plain type, whatever its scalar kind. No arena is judged, and no capability asked for.
 * shape: 0 is the scalar, 1 to 3 are vec2 to vec4, 4 to 12 the matrices: 4 + 3 * (columns - 2) + (rows - 2). width: 1, 2, 4 or 8.
 * numbers: three words, the column step 0 for what is no matrix; zeros on a refusal. Number 2, another shape or width. */
void wuldazin_plain(uint32_t shape, uint32_t width,
                    uint32_t *numbers, size_t numbers_length,
                    uint32_t *answer, size_t answer_length);

/* The type section of a SPIR-V module into type and member records, in word order: OpTypeBool, Int, Float, Vector, Matrix, Array,
 * RuntimeArray and Struct, an OpConstant of an integer type where it is an array's length, and the decorations Offset, ArrayStride,
 * MatrixStride and RowMajor that stand before their type. Other instructions are skipped. Members get no location and no blend source.
 * Every type of the eight is read, used in a buffer or not, and needs its decorations.
 * counts: two words, how many types and how many members; zeros on a refusal.
 * Accepted: the records from the start of types and members, the words after them as they were; cut the tables to the counts before
 * they are judged. Refused: all words of types and members are 0. Numbers 28 to 30 and 1, the first instruction's in word order, of one
 * instruction the least, 1 last. The time is linear in words that are skipped, and grows with the product of the ids and decorations
 * before a type and the ids that it names. */
void wuldazin_read_spirv(const uint32_t *words, size_t words_length,
                         uint32_t *types, size_t types_length,
                         uint32_t *members, size_t members_length,
                         uint32_t *counts, size_t counts_length,
                         uint32_t *answer, size_t answer_length);

/* The member rows of struct ty, as a part of members: its first word and how many words it has. Judges nothing.
 * part: two words; zeros for a number that is no struct, or whose rows reach past the table. */
void wuldazin_members(const uint32_t *types, size_t types_length,
                      const uint32_t *members, size_t members_length,
                      uint32_t ty,
                      uint64_t *part, size_t part_length);

/* The records of the structs of a WGSL text, types and members in lent tables, each type where it closes; judges nothing.
 * counts: two words, how many type records and how many member records there are; zeros on a refusal, left as they were where there are
 * fewer than two. The records stand at the start of the tables, and the words behind them are left. Numbers 1, where a table has no room
 * for a record, and 31 to 33, the first by place in the text, then by number, 1 last; a refusal zeroes every word of both tables. */
void wuldazin_read_wgsl(const uint8_t *text, size_t text_length,
                        uint32_t *types, size_t types_length,
                        uint32_t *members, size_t members_length,
                        uint32_t *counts, size_t counts_length,
                        uint32_t *answer, size_t answer_length);

/* The first order, by member numbers, of the wanted types as members of a struct whose WGSL placement, by the layout's sizes and alignments,
 * has at most the span; a runtime array stays last. wanted has one to WULDAZIN_MOST_GIVEN type numbers; a member number is a position in it.
 * types and members have room: type_count types and member_count member rows at their start are the arena, and the words behind them
 * are not read. The struct, with its own span, becomes type type_count, its members the rows from member_count on, with no location and no
 * blend source, and the arena with it is judged.
 * found: the struct's type number, its span, and the member number at each of WULDAZIN_MOST_GIVEN places, 0 for a place that it has not;
 * zeros on a refusal.
 *  - accepted: the record and the rows are written, and rows has those of type_count + 1 types.
 *  - number 1, tested first: more than WULDAZIN_MOST_GIVEN types, or no room for the record, the member rows or the row of the struct in
 *    the tables, the limits or rows. Nothing is touched.
 *  - numbers 1 to 24 and 34 of the arena: as in wuldazin_check, for type_count types.
 *  - then, over all wanted types, 16: none; 6: one outside the arena; 17: one that is no data; 20: an unsized struct, or a second runtime
 *    array; 35: no such order has at most the span. The rows of type_count types are kept.
 *  - then a refusal of the arena with the struct, as number 21 of type type_count: zeros for type_count + 1 types.
 * No refusal writes a record. Up to 5,040 orders are tried. */
void wuldazin_order(uint32_t *types, size_t types_length, uint32_t type_count,
                    uint32_t *members, size_t members_length, uint32_t member_count,
                    uint32_t capabilities, uint32_t rule,
                    uint32_t *rows, size_t rows_length,
                    const uint32_t *wanted, size_t wanted_length,
                    uint32_t span,
                    uint32_t *found, size_t found_length,
                    uint32_t *answer, size_t answer_length);

#ifdef __cplusplus
}
#endif

#endif
