/*
 * How much stack the calls take at the largest setup, dimension and projections 4,096, and at the largest one with a stored rotation, dimension 512:
 * each runs in a thread whose stack was painted before. They run on good inputs, and on inputs that are refused late or whose sums are not finite, since
 * a call that sums first goes another way there; and all of that at a dimension of 256 too. The most of all is printed, with where it was met.
 *
 *     cc -O2 -I include host/c/stack.c crates/capi/out/libcapi.a -lpthread -lm -o stack && ./stack
 *
 * Ends with 1 where a call takes more than the header names for its kind, or refuses good inputs.
 */
#include <math.h>
#include <pthread.h>
#include <stdio.h>
#include <stdlib.h>
#include <string.h>

#include "foldrima.h"

enum { MOST = 4096, MOST_STORED = 512, MOST_TABLE = 2 << 15, SIZE = 1 << 20, KB = 1024 };

/* What a call can meet: good inputs, with radii of both kinds, or one fault, each at the last place. */
enum { LINEAR, F32, BAD_ITEM, BAD_SIGN, BAD_DIRECTION, BAD_ENTRY, BAD_QUERY, BAD_TURNED, BAD_PROJECTED, BAD_RADIUS, BAD_SCORE, MET };
static const char *const met[MET] = {"linear", "f32", "a bad item", "a bad sign", "a bad direction", "a bad entry", "a bad query", "rotated values",
                                     "projected values", "a bad radius", "an infinite score"};

static size_t DIM, LESS, PAIRS, ROWS, TABLE;
static uint8_t BITS, POLAR, FORM;
static float signs[MOST], directions[MOST_TABLE], query[MOST], rotated[MOST], projected[MOST], radii[MOST / 2], floats[MOST], stored[MOST_STORED * MOST_STORED];
static float *matrix;
static uint16_t indices[MOST / 2];
static int8_t sketch[MOST];
static uint8_t payload[2 * MOST], packed[MOST], packed_signs[MOST / 8], record[8 * MOST], less[8 * MOST];
static size_t record_len, less_len, packed_len;
static uint32_t number;
static size_t place;
static foldrima_scan scan;
static foldrima_hit hits[64];

#define SETUP FOLDRIMA_POLAR_WITH_QJL, DIM, BITS, ROWS, FOLDRIMA_FAST_HADAMARD
#define TABLES signs, DIM, directions, TABLE, matrix, ROWS *DIM
#define STORED_SETUP FOLDRIMA_POLAR_WITH_QJL, LESS, BITS, ROWS, FOLDRIMA_STORED
#define STORED_TABLES stored, LESS *LESS, directions, TABLE, matrix, ROWS *LESS

static void nothing(void) { number = 0; }
static void pack(void) { foldrima_pack_indices(indices, PAIRS, POLAR, packed, packed_len, &number, &place); }
static void unpack(void) { foldrima_unpack_indices(packed, packed_len, PAIRS, POLAR, indices, PAIRS, &number, &place); }
static void pack_signs(void) { foldrima_pack_signs(sketch, ROWS, packed_signs, ROWS / 8, &number, &place); }
static void unpack_signs(void) { foldrima_unpack_signs(packed_signs, ROWS / 8, ROWS, sketch, ROWS, &number, &place); }
static void apply(void) { foldrima_apply(DIM, signs, DIM, query, DIM, floats, DIM, &number, &place); }
static void apply_inverse(void) { foldrima_apply_inverse(DIM, signs, DIM, query, DIM, floats, DIM, &number, &place); }
static void stored_apply(void) { foldrima_stored_apply(LESS, stored, LESS *LESS, query, LESS, floats, LESS, &number, &place); }
static void stored_apply_inverse(void) { foldrima_stored_apply_inverse(LESS, stored, LESS *LESS, query, LESS, floats, LESS, &number, &place); }
static void compress(void) { float min, max; foldrima_compress(radii, PAIRS, FORM, payload, (FORM ? 2 : 4) * PAIRS, &number, &place, &min, &max); }
static void decompress(void) { foldrima_decompress(FORM, PAIRS, 0.0f, 1.0f, payload, (FORM ? 2 : 4) * PAIRS, floats, PAIRS, &number, &place); }
static void quantize(void) { uint16_t value; foldrima_quantize(BITS, 0.0f, 1.0f, 0.5f, &number, &place, &value); }
static void uniform(void) { foldrima_uniform(BITS, 0.0f, 1.0f, &number, &place); }
static void levels(void) { uint32_t value; foldrima_levels(BITS, 0.0f, 1.0f, &number, &place, &value); }
static void midpoint(void) { float value; foldrima_dequantize_midpoint(BITS, 0.0f, 1.0f, 1, &number, &place, &value); }
static void encoded_bytes(void) { size_t value; foldrima_encoded_bytes(FOLDRIMA_BLOCK_LINEAR_U16, payload, 2 * PAIRS, &number, &place, &value); }
static void length_of_indices(void) { size_t value; foldrima_packed_len(PAIRS, POLAR, &number, &place, &value); }
static void padding(void) { foldrima_validate_padding_zero(packed, packed_len, 8 * packed_len, &number, &place); }
static void angle(void) { float value; foldrima_dequantize_angle(POLAR, 1, &number, &place, &value); }
static void root(void) { number = foldrima_sqrt(2.0f) < 1.0f; }
static void hadamard_seed(void) { number = foldrima_hadamard_seed(1) == 1; }
static void matrix_seed(void) { number = foldrima_matrix_seed(1) == 1; }
static void record_size(void) { size_t value; foldrima_record_size(FORM, DIM, POLAR, FOLDRIMA_POLAR_WITH_QJL, ROWS, 1, &number, &place, &value); }
static void check_setup(void) { foldrima_check_setup(SETUP, TABLES, &number, &place); }
static void make_sketch(void) { foldrima_sketch(SETUP, TABLES, query, DIM, sketch, ROWS, &number, &place); }
static void sketch_score(void) { float value; foldrima_sketch_score(SETUP, TABLES, query, DIM, sketch, ROWS, 0.75f, &number, &place, &value); }
static void prepare(void) { foldrima_prepare_query(SETUP, TABLES, query, DIM, rotated, DIM, projected, ROWS, &number, &place); }
static uint8_t written[8 * MOST];
static void write_record(void)
{
    foldrima_write_record(FORM, DIM, POLAR, FOLDRIMA_POLAR_WITH_QJL, ROWS, 1, 0.75f, radii, PAIRS, indices, PAIRS, sketch, ROWS, written, record_len, &number,
                          &place);
}
static void read_record(void)
{
    uint8_t mode, profile, bits, has_norm;
    size_t dim, projections;
    float min, max, norm;
    foldrima_read_record(record, record_len, &number, &place, &mode, &profile, &dim, &bits, &projections, &min, &max, &has_norm, &norm);
}
static void radii_part(void) { size_t start, count; foldrima_radii_part(record, record_len, &start, &count); }
static void indices_part(void) { size_t start, count; foldrima_indices_part(record, record_len, &start, &count); }
static void signs_part(void) { size_t start, count; foldrima_signs_part(record, record_len, &start, &count); }
static void read_radii(void) { foldrima_read_radii(record, record_len, floats, PAIRS, &number, &place); }
static void read_indices(void) { foldrima_read_indices(record, record_len, indices, PAIRS, &number, &place); }
static void read_signs(void) { foldrima_read_signs(record, record_len, sketch, ROWS, &number, &place); }
static void score(void) { float value; foldrima_inner_product_estimate(SETUP, TABLES, query, DIM, record, record_len, &number, &place, &value); }
static void prepared_score(void)
{
    float value;
    foldrima_inner_product_estimate_prepared(SETUP, directions, TABLE, rotated, DIM, projected, ROWS, record, record_len, &number, &place, &value);
}
static void distance(void) { float value; foldrima_l2_distance_estimate(SETUP, TABLES, query, DIM, record, record_len, &number, &place, &value); }
static void decode(void) { foldrima_decode_approximate(SETUP, TABLES, record, record_len, floats, DIM, &number, &place); }

/* A scan is given 64 hits, all of which the record's score moves down; `many` has the record, a withdrawn position and a byte that is no record. */
static void scan_open(void) { scan = foldrima_scan_open(64, &number, &place); }
static void scan_shorten(void) { foldrima_shorten(&scan, 64, &number, &place); }
static void scan_close(void) { foldrima_scan_close(scan, hits, 64, &number, &place); }
static void scan_take(void)
{
    float value;
    foldrima_take_into(&scan, SETUP, TABLES, query, DIM, record, record_len, &number, &place, &value);
}
static void scan_take_prepared(void)
{
    float value;
    foldrima_take_prepared_into(&scan, SETUP, directions, TABLE, rotated, DIM, projected, ROWS, record, record_len, &number, &place, &value);
}
static void scan_take_many(void)
{
    const size_t ends[3] = {record_len, record_len, record_len + 1};
    foldrima_take_many_into(&scan, SETUP, directions, TABLE, rotated, DIM, projected, ROWS, record, record_len + 1, ends, 3, &number, &place);
}

/* The same under the stored rotation. */
static void stored_check(void) { foldrima_check_setup(STORED_SETUP, STORED_TABLES, &number, &place); }
static void stored_sketch(void) { foldrima_sketch(STORED_SETUP, STORED_TABLES, query, LESS, sketch, ROWS, &number, &place); }
static void stored_sketch_score(void)
{
    float value;
    foldrima_sketch_score(STORED_SETUP, STORED_TABLES, query, LESS, sketch, ROWS, 0.75f, &number, &place, &value);
}
static void stored_prepare(void) { foldrima_prepare_query(STORED_SETUP, STORED_TABLES, query, LESS, rotated, LESS, projected, ROWS, &number, &place); }
static void stored_score(void)
{
    float value;
    foldrima_inner_product_estimate(STORED_SETUP, STORED_TABLES, query, LESS, less, less_len, &number, &place, &value);
}
static void stored_prepared_score(void)
{
    float value;
    foldrima_inner_product_estimate_prepared(STORED_SETUP, directions, TABLE, rotated, LESS, projected, ROWS, less, less_len, &number, &place, &value);
}
static void stored_distance(void)
{
    float value;
    foldrima_l2_distance_estimate(STORED_SETUP, STORED_TABLES, query, LESS, less, less_len, &number, &place, &value);
}
static void stored_decode(void) { foldrima_decode_approximate(STORED_SETUP, STORED_TABLES, less, less_len, floats, LESS, &number, &place); }
static void stored_take(void)
{
    float value;
    foldrima_take_into(&scan, STORED_SETUP, STORED_TABLES, query, LESS, less, less_len, &number, &place, &value);
}
static void stored_take_prepared(void)
{
    float value;
    foldrima_take_prepared_into(&scan, STORED_SETUP, directions, TABLE, rotated, LESS, projected, ROWS, less, less_len, &number, &place, &value);
}
static void stored_take_many(void)
{
    const size_t ends[3] = {less_len, less_len, less_len + 1};
    foldrima_take_many_into(&scan, STORED_SETUP, directions, TABLE, rotated, LESS, projected, ROWS, less, less_len + 1, ends, 3, &number, &place);
}

static void *run(void *call)
{
    (*(void (**)(void))call)();
    return NULL;
}

/* How many bytes of a painted stack a thread has written to that makes this call. */
static size_t used(unsigned char *stack, void (*call)(void))
{
    pthread_attr_t attributes;
    pthread_t thread;
    size_t kept = 0;
    memset(stack, 0xA5, SIZE);
    pthread_attr_init(&attributes);
    if (pthread_attr_setstack(&attributes, stack, SIZE) || pthread_create(&thread, &attributes, run, &call)) {
        fprintf(stderr, "no thread\n");
        exit(2);
    }
    pthread_join(thread, NULL);
    while (stack[kept] == 0xA5)
        kept++;
    return SIZE - kept;
}

/* The length of the record of this dimension, which is written. */
static size_t recorded(uint8_t *out, size_t dim)
{
    const size_t pairs = dim / 2;
    foldrima_write_record(FORM, dim, POLAR, FOLDRIMA_POLAR_WITH_QJL, ROWS, 1, 0.75f, radii, pairs, indices, pairs, sketch, ROWS, out, 0, &number, &place);
    const size_t len = place;
    foldrima_write_record(FORM, dim, POLAR, FOLDRIMA_POLAR_WITH_QJL, ROWS, 1, 0.75f, radii, pairs, indices, pairs, sketch, ROWS, out, len, &number, &place);
    return len;
}

/* A setup's scalars, and its two matrices and its table, which stay. */
static void set_up(size_t dim, size_t stored_dim, size_t rows, uint8_t bits)
{
    DIM = dim, LESS = stored_dim, PAIRS = dim / 2, ROWS = rows, BITS = bits, POLAR = bits - 1, TABLE = (size_t)2 << POLAR;
    for (size_t i = 0; i < ROWS * DIM; i++)
        matrix[i] = i % 3 ? 0.5f : -0.25f;
    for (size_t i = 0; i < LESS * LESS; i++)
        stored[i] = i % 7 ? 0.25f : -0.5f;
    for (size_t i = 0; i < TABLE / 2; i++) {
        float angle;
        foldrima_dequantize_angle(POLAR, (uint16_t)i, &number, &place, &angle);
        directions[2 * i] = cosf(angle);
        directions[2 * i + 1] = sinf(angle);
    }
}

/* Good inputs, all but the tables. */
static void fill(int what)
{
    FORM = what == F32 || what == BAD_RADIUS ? FOLDRIMA_F32 : FOLDRIMA_BLOCK_LINEAR_U16;
    for (size_t i = 0; i < DIM; i++) {
        signs[i] = i % 3 ? 1.0f : -1.0f;
        rotated[i] = query[i] = (float)i / (float)DIM;
        radii[i / 2] = 1.0f + (float)(i / 2);
        indices[i / 2] = (uint16_t)(i / 2 % (TABLE / 2));
    }
    for (size_t i = 0; i < ROWS; i++) {
        sketch[i] = i % 5 ? 1 : -1;
        projected[i] = (float)i;
    }
    float min, max;
    foldrima_compress(radii, PAIRS, FORM, payload, (FORM ? 2 : 4) * PAIRS, &number, &place, &min, &max);
    foldrima_packed_len(PAIRS, POLAR, &number, &place, &packed_len);
    pack();
    pack_signs();
    record_len = recorded(record, DIM);
    less_len = recorded(less, LESS);
    scan = foldrima_scan_open(64, &number, &place);
    for (uint32_t i = 0; i < 64; i++)
        scan.numbers[i] = i, scan.scores[i] = -3.0e38f;
    scan.tally.kept = scan.tally.taken = 64;
}

/* Spoils the inputs, or puts the tables right again. */
static void spoil(int what, int bad)
{
    /* The header with a range and a norm has 22 bytes, and that with a norm alone 14. */
    const float tiny = -1.0f, top = 3.0e38f;
    if (what == BAD_ITEM)
        sketch[ROWS - 1] = 2, radii[PAIRS - 1] = -1.0f, indices[PAIRS - 1] = (uint16_t)(TABLE / 2), packed[0] ^= 1, payload[3] = 0xFF;
    if (what == BAD_SIGN)
        signs[DIM - 1] = bad ? 2.0f : 1.0f, stored[LESS * LESS - 1] = bad ? INFINITY : 0.25f;
    if (what == BAD_DIRECTION)
        directions[TABLE - 1] = bad ? 2.0f : 0.0f;
    if (what == BAD_ENTRY)
        matrix[ROWS * DIM - 1] = matrix[ROWS * LESS - 1] = bad ? INFINITY : 0.5f;
    if (what == BAD_QUERY)
        query[DIM - 1] = query[LESS - 1] = rotated[DIM - 1] = rotated[LESS - 1] = INFINITY;
    for (size_t i = 0; what == BAD_TURNED && i < DIM; i++)
        query[i] = signs[i] * 3.0e38f;
    for (size_t i = 0; what == BAD_PROJECTED && i < ROWS; i++)
        matrix[i * DIM] = matrix[i * LESS] = bad ? 3.0e38f : 0.5f, query[0] = 3.0f, projected[i] = INFINITY;
    if (what == BAD_RADIUS)
        memcpy(record + 14 + 4 * (PAIRS - 1), &tiny, 4), memcpy(less + 14 + 4 * (LESS / 2 - 1), &tiny, 4);
    if (what == BAD_SCORE)
        memcpy(record + 10, &top, 4), memcpy(less + 10, &top, 4);
}

int main(void)
{
    static const struct { const char *name; void (*call)(void); size_t most; } calls[] = {
        {"packed_len", length_of_indices, 4 * KB}, {"pack_indices", pack, 4 * KB}, {"unpack_indices", unpack, 4 * KB}, {"pack_signs", pack_signs, 4 * KB},
        {"unpack_signs", unpack_signs, 4 * KB}, {"validate_padding_zero", padding, 4 * KB}, {"uniform", uniform, 4 * KB}, {"levels", levels, 4 * KB},
        {"quantize", quantize, 4 * KB}, {"dequantize_midpoint", midpoint, 4 * KB}, {"compress", compress, 4 * KB}, {"decompress", decompress, 4 * KB},
        {"encoded_bytes", encoded_bytes, 4 * KB}, {"sqrt", root, 4 * KB}, {"dequantize_angle", angle, 4 * KB}, {"hadamard_seed", hadamard_seed, 4 * KB},
        {"matrix_seed", matrix_seed, 4 * KB}, {"apply", apply, 4 * KB}, {"apply_inverse", apply_inverse, 4 * KB}, {"check_setup", check_setup, 4 * KB},
        {"record_size", record_size, 4 * KB}, {"write_record", write_record, 4 * KB}, {"read_record", read_record, 4 * KB},
        {"radii_part", radii_part, 4 * KB}, {"indices_part", indices_part, 4 * KB}, {"signs_part", signs_part, 4 * KB}, {"read_radii", read_radii, 4 * KB},
        {"read_indices", read_indices, 4 * KB}, {"read_signs", read_signs, 4 * KB}, {"sketch", make_sketch, 24 * KB},
        {"sketch_score", sketch_score, 24 * KB}, {"inner_product_estimate_prepared", prepared_score, 24 * KB}, {"decode_approximate", decode, 8 * KB},
        {"prepare_query", prepare, 48 * KB}, {"inner_product_estimate", score, 60 * KB}, {"l2_distance_estimate", distance, 60 * KB},
        {"stored_apply", stored_apply, 8 * KB}, {"stored_apply_inverse", stored_apply_inverse, 8 * KB}, {"check_setup, stored", stored_check, 4 * KB},
        {"sketch, stored", stored_sketch, 24 * KB}, {"sketch_score, stored", stored_sketch_score, 24 * KB},
        {"prepare_query, stored", stored_prepare, 48 * KB}, {"inner_product_estimate, stored", stored_score, 60 * KB},
        {"prepared score, stored", stored_prepared_score, 24 * KB}, {"l2_distance_estimate, stored", stored_distance, 60 * KB},
        {"decode_approximate, stored", stored_decode, 8 * KB}, {"scan_open", scan_open, 4 * KB}, {"scan_take", scan_take, 60 * KB},
        {"scan_take_prepared", scan_take_prepared, 24 * KB}, {"scan_take_many", scan_take_many, 24 * KB}, {"scan_shorten", scan_shorten, 4 * KB},
        {"scan_close", scan_close, 4 * KB}, {"scan_take, stored", stored_take, 60 * KB},
        {"scan_take_prepared, stored", stored_take_prepared, 24 * KB}, {"scan_take_many, stored", stored_take_many, 24 * KB},
    };
    enum { CALLS = sizeof calls / sizeof *calls };
    static size_t most[CALLS];
    static int where[CALLS], refused[CALLS];
    unsigned char *stack = aligned_alloc(4096, SIZE);
    int failed = 0;
    matrix = malloc(sizeof(float) * MOST * MOST);
    if (!stack || !matrix)
        return 2;
    const size_t thread = used(stack, nothing);
    for (int small = 0; small < 2; small++) {
        if (small)
            set_up(256, 256, 64, 8);
        else
            set_up(MOST, MOST_STORED, MOST, 16);
        for (int what = 0; what < MET; what++)
            for (size_t i = 0; i < CALLS; i++) {
                fill(what);
                spoil(what, 1);
                const size_t bytes = used(stack, calls[i].call) - thread;
                refused[i] |= number != 0 && what <= F32;
                if (bytes > most[i])
                    most[i] = bytes, where[i] = small * MET + what;
                spoil(what, 0);
            }
    }
    for (size_t i = 0; i < CALLS; i++) {
        failed |= refused[i] || most[i] > calls[i].most;
        printf("%-34s %6zu bytes (%s%s)%s%s\n", calls[i].name, most[i], met[where[i] % MET], where[i] / MET ? ", 256" : "", refused[i] ? ", REFUSED" : "",
               most[i] > calls[i].most ? ", TOO MANY" : "");
    }
    return failed;
}
