/*
 * Foldrima: the C functions of the proved port of turbo-quant, one for each call of document 01, one for a record's length, and of document 02 two for
 * the stored rotation and six for the scan. For 64-bit x86 only: libcapi.a is an archive for x86-64 Linux.
 *
 * A signature here is that of the function of the same name in crates/capi; a test of host/foldrima holds the two, and the structs and numbers below,
 * against the sources.
 *
 * Slices. A slice is a pointer and a length in elements. The pointer is valid and aligned for so many elements. Where the length is 0 it may be
 * anything, NULL too: nothing is read or written through it (tested for every slice of every call). All other pointers (number, place, value, min,
 * max, start, count, the header's, and scan of the functions that are defined below) must not be NULL. Memory that a call writes (a pointer that is
 * not const) must overlap nothing else that it is lent.
 *
 * Answers. There are three kinds, told by *number and *place: beside a value they are 0 and 0, of a refusal its number (FOLDRIMA_..) and its place,
 * and of a withdrawn position FOLDRIMA_WITHDRAWN and 0. No refusal has the number 0 or 255. Neither a refusal nor a withdrawn position writes to any
 * other memory, but for the tally of a foldrima_scan that is given to a function defined below: *value, the header's values and every output keep what
 * they held.
 *
 * Withdrawn positions. A record of no bytes means that a position was withdrawn: that is no refusal, and there is no value. Only a call that takes a
 * record answers so, and its comment says where withdrawn comes in its order; a record of 1 to 5 bytes is refused (13). The calls that find a record's
 * parts have no *number: of a record that is refused or withdrawn they find an empty part. foldrima_scan_take_many takes many and only counts it.
 *
 * Norms. A record with signs may have the norm of its source, a float that the residual's scale is multiplied by; without one the norm is 1.0. Writing
 * takes one that is given or absent: has_norm 0 is absent, and norm then ignored; every other has_norm is given. It is stored exactly where it is given,
 * with map bit 2 and four bytes behind the projections, bit for bit, 1.0 and -0.0 too. Reading tells whether one stood (has_norm 0 or 1) apart from its
 * value. A norm that is NaN, infinite or below zero is 23; -0.0 is none of these. Decoding judges it with the rest of the
 * record, and makes no use of it.
 *
 * Outputs. What a call writes to need not be initialised: it is written whole, or not at all. An output must have exactly the needed length, else 6 with
 * the needed length as the place, after all other checks. So a call with an output of length 0 tells the needed length, unless something else is refused,
 * the record is withdrawn, or 0 was right. A withdrawn position needs no length: it is answered before 6, whatever length is lent. The needed length
 * beforehand:
 *
 *     pack_indices                    foldrima_packed_len(indices_len, bits, ..)
 *     unpack_indices, unpack_signs    count
 *     pack_signs                      foldrima_packed_len(signs_len, 1, ..)
 *     apply, apply_inverse            dim
 *     stored_apply and its inverse    dim
 *     sketch                          projections; 0 in PolarOnly
 *     prepare_query                   rotated: dim; projected: projections, 0 in PolarOnly
 *     decode_approximate              dim
 *     compress                        4 * radii_len for F32, 2 * radii_len for BlockLinearU16
 *     decompress                      count
 *     write_record                    foldrima_record_size(profile, dim, bits, mode, projections, has_norm, ..)
 *     read_radii, read_indices        dim / 2, with dim from foldrima_read_record
 *     read_signs                      projections from foldrima_read_record
 *     scan_close                      tally.kept of the scan
 *
 * Scans. A scan keeps the best of a stream of records under a query. The caller holds it, as a foldrima_scan that foldrima_scan_open answers; records are
 * taken into it singly or many at once, and it is closed into a list of hits. Records number from 0 in the order in which they are taken, refused and
 * withdrawn ones too. Hits stand by falling score, and equal scores, both zeros included, by number: after each record they are the first `length` that
 * a full sort of the accepted records so far would give.
 *
 * A new score is compared with the hits from the last upward and stops at the first that it does not beat; tally.comparisons has all that were made since
 * the scan was opened. A record adds at most the length then in force, and a refused or withdrawn one none: in all at most 64 * 4,294,967,295.
 *
 * A scan may be given a smaller length while records are still to come (foldrima_scan_shorten, and foldrima_shorten on a foldrima_scan): hits beyond it
 * are gone. From then on its hits, and all counts but comparisons, are those of a scan that was opened with that length, or with the least of several,
 * and was lent the same records. Shortening makes no comparison; each record's are made at the length that was in force when it came.
 *
 * A call that takes records is given the tally by value and the two lists in place, and answers the tally that follows, which the caller keeps for the
 * next call. The lists are no outputs as above: they hold the scan's hits, are read, and are written only where a record comes to stand among these.
 * Each has at least `length` places, else the scan keeps fewer hits. Behind the hits kept they may hold anything. foldrima_take_into and its two
 * companions below do this to a foldrima_scan. A tally that is answered tells whether a single record took a number: taken is then one more; where
 * many were taken it is ends_len more. A single record takes its number beside a value, beside withdrawn, and beside a refusal from the record's
 * reading on, which is counted in refused too; a refusal before it, of the scan (22), the setup or the query, numbers nothing and leaves all as it
 * was. The same numbers can come from either side, so *number does not tell the two apart.
 *
 * A scan may be copied, and laid away and taken up again, as any struct. On a tally or lists that these calls did not lead to, a call still ends and stays
 * within what it is lent: there is room for as many hits as the least of length, numbers_len and scores_len. foldrima_tally has four bytes of padding
 * behind withdrawn, of which nothing is said: compare scans by their fields.
 *
 * Memory and threads. No call allocates, and none keeps anything after it returns, a pointer neither: there is no state but what the caller holds, so
 * calls may run in any number of threads at once, as long as none writes what another is lent.
 *
 * Stack. Whatever it is lent, a call takes at most (host/c/stack.c measures every call at the largest setup):
 *
 *     inner_product_estimate, l2_distance_estimate, scan_take     60 KB
 *     prepare_query                                               48 KB
 *     sketch, sketch_score, inner_product_estimate_prepared,
 *     scan_take_prepared, scan_take_many                          24 KB
 *     decode_approximate, stored_apply and its inverse             8 KB
 *     every other call                                             4 KB
 *
 * Modes, kinds and profiles. They are numbers here, since an enum can't cross to C, and every number of a uint8_t means one: a mode other than 0 counts
 * as 1, PolarWithQjl, a kind other than 0 as 1, Stored, and a profile other than 0 and 1 as BlockLogU8, which every call that takes a profile refuses
 * (18; in foldrima_compress 16 comes before). Document 01 has no refusal for a number that names nothing, and a call answers for everything it can be
 * given (docs/DECISIONS.md, 31).
 *
 * The float mode. Every answer rests on the mode that a thread starts with: round to nearest, subnormals kept (MXCSR: rounding control, FTZ and DAZ all
 * clear), exceptions masked. No call looks at it. Some numerical libraries switch flush-to-zero on, and then an answer may be wrong with no refusal:
 * dim 2, 1 bit, query (2^-130, 0), radius 2^100, index 1 is scored 0, where the exact score is 6.59e-10 and its bound 1.6e-14. Restore the mode before a
 * call. (The Rust package of host/foldrima looks at it before every call.)
 *
 * Setups. A setup is mode, dim, bits (the total), projections and kind, and lent beside them rotation (below), directions (cosine and sine of the angle
 * of each index, 2 * 2^polar bits entries) and matrix (projections * dim entries, row by row; none in PolarOnly). Polar bits are the total, less 1 in
 * PolarWithQjl. Every call that takes a setup checks it first.
 *
 * Rotations. The kind says which rotation a setup has, and so what is lent as its rotation:
 *
 *     FastHadamard    dim signs, each -1 or 1; dim is a power of two from 2 to 4,096 (another even one is 4)
 *     Stored          the dim * dim entries of a matrix, column by column: that of row i and column j stands at j * dim + i; dim is even and at most
 *                     512 (above it 26). The rotation sums along rows, and its inverse along columns: it turns back where the matrix is orthogonal,
 *                     which is not checked.
 *
 * A setup's checks are then, in this order ('setup' in the comments below):
 *
 *     FastHadamard    2, 3, 1, 8, 4, 5 for rotation, directions, matrix, 10 for a sign, 7, 9
 *     Stored          2, 3, 1, 8, 26, 5 for rotation, directions, matrix, 9 for an entry of the rotation, 7, 9 for one of the matrix
 *
 * A record may have any even dimension up to 4,096, and does not say under which kind it was made. Under a setup of another dimension it is 5.
 */
#ifndef FOLDRIMA_H
#define FOLDRIMA_H

#include <stddef.h>
#include <stdint.h>

#ifdef __cplusplus
extern "C" {
#endif

#if !defined(__x86_64__) || defined(__ILP32__)
#error "libcapi.a is for 64-bit x86"
#endif

/* ---- modes, kinds of a rotation, profiles */

#define FOLDRIMA_POLAR_ONLY 0        /* no residual sketch */
#define FOLDRIMA_POLAR_WITH_QJL 1    /* with one; so is every other number */

#define FOLDRIMA_FAST_HADAMARD 0     /* signs and the Hadamard transform */
#define FOLDRIMA_STORED 1            /* a matrix, lent column by column; so is every other number */

#define FOLDRIMA_F32 0               /* a radius is its four bytes */
#define FOLDRIMA_BLOCK_LINEAR_U16 1  /* a radius is sixteen bits within a range */
#define FOLDRIMA_BLOCK_LOG_U8 2      /* refused (18); so is every other number */

/* ---- the refusals */

#define FOLDRIMA_INVALID_BIT_WIDTH 1      /* bits outside 1..16, or total bits below 2 in residual mode; place: the bits */
#define FOLDRIMA_ZERO_DIMENSION 2         /* dimension 0; place 0 */
#define FOLDRIMA_ODD_DIMENSION 3          /* odd dimension; place: the dimension */
#define FOLDRIMA_ROTATION_FAILED 4        /* Hadamard: an even dimension, no power of two or above 4,096; a record: above 4,096; place: the dimension */
#define FOLDRIMA_DIMENSION_MISMATCH 5     /* an input's length, or a record's dimension, is not the setup's; an end is wrong; place: what was found */
#define FOLDRIMA_OUTPUT_LENGTH 6          /* an output isn't exactly the needed length; place: the needed length */
#define FOLDRIMA_INVALID_DIRECTION 7      /* a direction entry is not finite or outside -1..1; place: its index */
#define FOLDRIMA_ZERO_PROJECTION_COUNT 8  /* in residual mode, projections 0 or above 4,096; place: the count */
#define FOLDRIMA_NON_FINITE_MATRIX 9      /* an entry of a matrix, a stored rotation's or the projections', is not finite; place: its index */
#define FOLDRIMA_MALFORMED_SIGN 10        /* a sign is neither -1 nor 1; place: its index */
#define FOLDRIMA_NON_FINITE_INPUT 11      /* a value is not finite, in the vector, rotated or projected; place: its index there */
#define FOLDRIMA_NON_FINITE_SCORE 12      /* a score or distance is not finite; place 0 */
#define FOLDRIMA_MALFORMED_LENGTH 13      /* byte length wrong; place: the length found */
#define FOLDRIMA_MALFORMED_PADDING 14     /* padding bits not zero; place: that byte's index in its payload */
#define FOLDRIMA_MALFORMED_INDEX 15       /* an index at or above 2^bits; place: its index, or 0 for a single one */
#define FOLDRIMA_MALFORMED_RADIUS 16      /* a radius is NaN, infinite or below zero; place: its index */
#define FOLDRIMA_MALFORMED_RANGE 17       /* a bound not finite, or min above max; for a codebook also min equal to max; place 0 */
#define FOLDRIMA_UNDEFINED_PROFILE 18     /* a map bit not defined, a norm without signs, or BlockLogU8; place: the map byte in reading, else 0 */
#define FOLDRIMA_LENGTH_OVERFLOW 19       /* count times bits exceeds the largest size_t; place 0 */
#define FOLDRIMA_PROFILE_MISMATCH 20      /* a record's bits or projections are not the setup's; place 0 */
#define FOLDRIMA_SCAN_LENGTH 21           /* a scan's length is 0 or above 64; place 0 */
#define FOLDRIMA_SCAN_FULL 22             /* a scan has taken 4,294,967,295 records, or has fewer numbers left than there are records; place 0 */
#define FOLDRIMA_MALFORMED_NORM 23        /* a norm is not finite or below zero; place 0 */
#define FOLDRIMA_SCAN_NOT_SHORTER 25      /* a scan's new length is 0 or above its present one; place 0 */
#define FOLDRIMA_STORED_DIMENSION 26      /* a stored rotation's dimension is above 512; place 0 */

/* ---- a withdrawn position */

#define FOLDRIMA_WITHDRAWN 255            /* the record has no bytes: no refusal and no value; place 0 */

/* ---- setup */

/* Whether a setup is accepted, by the checks that 'Rotations' lists above. */
void foldrima_check_setup(uint8_t mode, size_t dim, uint8_t bits, size_t projections, uint8_t kind, const float *rotation, size_t rotation_len,
                          const float *directions, size_t directions_len, const float *matrix, size_t matrix_len, uint32_t *number, size_t *place);

/* The seed of the host's generator of rotation signs: seed + A11CE55ED5A5EED5 modulo 2^64. */
uint64_t foldrima_hadamard_seed(uint64_t seed);

/* The seed of the host's generator of matrix entries: seed + CAFEBABE00000001 + DEADBEEF12345678 modulo 2^64. */
uint64_t foldrima_matrix_seed(uint64_t seed);

/* ---- bits */

/* The bytes that count indices of so many bits take: 1, 19. */
void foldrima_packed_len(size_t count, uint8_t bits, uint32_t *number, size_t *place, size_t *value);

/* Packs indices, the first from bit 0 of byte 0 upward: 1, 19, 15, 6. */
void foldrima_pack_indices(const uint16_t *indices, size_t indices_len, uint8_t bits, uint8_t *out, size_t out_len, uint32_t *number, size_t *place);

/* Unpacks count indices: 1, 19, 13, 14, 6. */
void foldrima_unpack_indices(const uint8_t *packed, size_t packed_len, size_t count, uint8_t bits, uint16_t *out, size_t out_len, uint32_t *number,
                             size_t *place);

/* Packs signs, each -1 or 1, as bit 0 or 1: 10, 6. */
void foldrima_pack_signs(const int8_t *signs, size_t signs_len, uint8_t *out, size_t out_len, uint32_t *number, size_t *place);

/* Unpacks count signs: 13, 14, 6. */
void foldrima_unpack_signs(const uint8_t *packed, size_t packed_len, size_t count, int8_t *out, size_t out_len, uint32_t *number, size_t *place);

/* Whether the length is right and every bit from used_bits up is zero: 13, 14. */
void foldrima_validate_padding_zero(const uint8_t *packed, size_t packed_len, size_t used_bits, uint32_t *number, size_t *place);

/* ---- rotation, sketch, score */

/* The Hadamard rotation of the input: 2, 3, 4, 5 for the signs, 10, 5 for the input, 6. Values that aren't finite pass through. */
void foldrima_apply(size_t dim, const float *signs, size_t signs_len, const float *input, size_t input_len, float *output, size_t output_len,
                    uint32_t *number, size_t *place);

/* The inverse rotation; refusals as for foldrima_apply. */
void foldrima_apply_inverse(size_t dim, const float *signs, size_t signs_len, const float *input, size_t input_len, float *output, size_t output_len,
                            uint32_t *number, size_t *place);

/* The rotation of the input by a matrix that is lent column by column: 2, 3, 26, 5 for the matrix, 9, 5 for the input, 6. Values of the input that
 * aren't finite pass through. */
void foldrima_stored_apply(size_t dim, const float *matrix, size_t matrix_len, const float *input, size_t input_len, float *output, size_t output_len,
                           uint32_t *number, size_t *place);

/* The inverse rotation, by the matrix's columns; refusals as for foldrima_stored_apply. */
void foldrima_stored_apply_inverse(size_t dim, const float *matrix, size_t matrix_len, const float *input, size_t input_len, float *output,
                                   size_t output_len, uint32_t *number, size_t *place);

/* IEEE 754's squareRoot; below zero it is NaN. */
float foldrima_sqrt(float x);

/* The angle of an index of so many bits, from -PI on: 1, 15. */
void foldrima_dequantize_angle(uint8_t bits, uint16_t index, uint32_t *number, size_t *place, float *value);

/* The sketch of a vector, a sign for each projection, none in PolarOnly: setup, 5, 11, 6. */
void foldrima_sketch(uint8_t mode, size_t dim, uint8_t bits, size_t projections, uint8_t kind, const float *rotation, size_t rotation_len,
                     const float *directions, size_t directions_len, const float *matrix, size_t matrix_len, const float *vector, size_t vector_len,
                     int8_t *out, size_t out_len, uint32_t *number, size_t *place);

/* The score of lent sketch signs, with the norm of their source (1.0 where it isn't known): setup, 5, 11 query, 11 projected, 5 and 10 for the signs,
 * 23, 12. In PolarOnly the value is 0, after the same checks. */
void foldrima_sketch_score(uint8_t mode, size_t dim, uint8_t bits, size_t projections, uint8_t kind, const float *rotation, size_t rotation_len,
                           const float *directions, size_t directions_len, const float *matrix, size_t matrix_len, const float *query, size_t query_len,
                           const int8_t *sketch, size_t sketch_len, float norm, uint32_t *number, size_t *place, float *value);

/* A query rotated (dim entries) and projected (projections entries, none in PolarOnly): setup, 5, 11 thrice, 6 for rotated, 6 for projected. */
void foldrima_prepare_query(uint8_t mode, size_t dim, uint8_t bits, size_t projections, uint8_t kind, const float *rotation, size_t rotation_len,
                            const float *directions, size_t directions_len, const float *matrix, size_t matrix_len, const float *query,
                            size_t query_len, float *rotated, size_t rotated_len, float *projected, size_t projected_len, uint32_t *number,
                            size_t *place);

/* The score of a record by a query, its residual scaled with the record's norm: setup, 5, 11 thrice, withdrawn, the record's reading, 5, 20, 12. */
void foldrima_inner_product_estimate(uint8_t mode, size_t dim, uint8_t bits, size_t projections, uint8_t kind, const float *rotation,
                                     size_t rotation_len, const float *directions, size_t directions_len, const float *matrix, size_t matrix_len,
                                     const float *query, size_t query_len, const uint8_t *bytes, size_t bytes_len, uint32_t *number, size_t *place,
                                     float *value);

/* The score of a record by a prepared query: 2, 3, 1, 8, 4 (26 for Stored), 5 and 7 for the directions, 5 twice, 11 twice, withdrawn, the record's
 * reading, 5, 20, 12. The rotation is not lent again: the kind says which dimensions it takes. */
void foldrima_inner_product_estimate_prepared(uint8_t mode, size_t dim, uint8_t bits, size_t projections, uint8_t kind, const float *directions,
                                              size_t directions_len, const float *rotated, size_t rotated_len, const float *projected,
                                              size_t projected_len, const uint8_t *bytes, size_t bytes_len, uint32_t *number, size_t *place,
                                              float *value);

/* The squared distance of a record from a query: the score's refusals, with withdrawn in the same place, then 12 of its own, where its sum (both squared
 * norms, less twice the score) is NaN or plus infinity. It is 0 where the sum is not greater than zero, minus infinity included. */
void foldrima_l2_distance_estimate(uint8_t mode, size_t dim, uint8_t bits, size_t projections, uint8_t kind, const float *rotation, size_t rotation_len,
                                   const float *directions, size_t directions_len, const float *matrix, size_t matrix_len, const float *query,
                                   size_t query_len, const uint8_t *bytes, size_t bytes_len, uint32_t *number, size_t *place, float *value);

/* The vector that a record stands for (dim entries): setup, withdrawn, the record's reading, 5, 20, 6. */
void foldrima_decode_approximate(uint8_t mode, size_t dim, uint8_t bits, size_t projections, uint8_t kind, const float *rotation, size_t rotation_len,
                                 const float *directions, size_t directions_len, const float *matrix, size_t matrix_len, const uint8_t *bytes,
                                 size_t bytes_len, float *out, size_t out_len, uint32_t *number, size_t *place);

/* ---- radii and codebook */

/* Compresses radii, 4 bytes each (F32) or 2 (BlockLinearU16), and answers their range, 0 and 0 for F32: 16, 18, 6.
 * F32 radii come back to the last bit. Where all radii are below 2^127, each linear one comes back within (max - min) / 65,535 + max / 2^22 + 2^-23 of
 * what it was, as exact numbers; so do the radii of a record that is written linear. */
void foldrima_compress(const float *radii, size_t radii_len, uint8_t profile, uint8_t *out, size_t out_len, uint32_t *number, size_t *place, float *min,
                       float *max);

/* Decompresses count radii: 18, 13, 17 (linear only), 16 (F32 only), 6. */
void foldrima_decompress(uint8_t profile, size_t count, float min, float max, const uint8_t *payload, size_t payload_len, float *out, size_t out_len,
                         uint32_t *number, size_t *place);

/* The bytes of a payload with the range that goes with it: 18. */
void foldrima_encoded_bytes(uint8_t profile, const uint8_t *payload, size_t payload_len, uint32_t *number, size_t *place, size_t *value);

/* Whether bits and bounds make a codebook, which is these three: 1, 17. */
void foldrima_uniform(uint8_t bits, float min, float max, uint32_t *number, size_t *place);

/* How many levels a codebook has: 1, 17. */
void foldrima_levels(uint8_t bits, float min, float max, uint32_t *number, size_t *place, uint32_t *value);

/* The level that x falls into: 1, 17, 11. */
void foldrima_quantize(uint8_t bits, float min, float max, float x, uint32_t *number, size_t *place, uint16_t *value);

/* The middle of a level, which may be infinite: 1, 17, 15. */
void foldrima_dequantize_midpoint(uint8_t bits, float min, float max, uint16_t index, uint32_t *number, size_t *place, float *value);

/* ---- the record */

/* How many bytes a record takes, with a norm or without; bits are the polar bits, and in PolarOnly the projections are ignored: 18 for the profile, 18
 * for a norm in PolarOnly, 2, 3, 4, 1, 8. */
void foldrima_record_size(uint8_t profile, size_t dim, uint8_t bits, uint8_t mode, size_t projections, uint8_t has_norm, uint32_t *number,
                          size_t *place, size_t *value);

/* Writes a record; bits are the polar bits, and in PolarOnly the signs are none: 18 for the profile, 18 for a norm in PolarOnly, 2, 3, 4, 1, 8, 5 for
 * radii, indices, signs, 23, 16 for bad radii, 16 for radii that would read as infinite, 15, 10, 6. */
void foldrima_write_record(uint8_t profile, size_t dim, uint8_t bits, uint8_t mode, size_t projections, uint8_t has_norm, float norm,
                           const float *radii, size_t radii_len, const uint16_t *indices, size_t indices_len, const int8_t *signs, size_t signs_len,
                           uint8_t *out, size_t out_len, uint32_t *number, size_t *place);

/* Reads a record's header: withdrawn, 13, 18, 2, 3, 4, 1, 13, 8, 13, 17, 23, 16, 14 for the indices, 14 for the signs. mode, profile and has_norm come
 * back as 0 or 1; bits are the polar bits. Where the radii are F32 there is no range: min and max are 0 and 0. Where there are no signs, mode is
 * PolarOnly and projections 0. Where there is no norm, has_norm is 0 and norm 1.0. */
void foldrima_read_record(const uint8_t *bytes, size_t bytes_len, uint32_t *number, size_t *place, uint8_t *mode, uint8_t *profile, size_t *dim,
                          uint8_t *bits, size_t *projections, float *min, float *max, uint8_t *has_norm, float *norm);

/* Where the radii stand in a record's bytes; start and count are 0 where the record is refused or withdrawn. */
void foldrima_radii_part(const uint8_t *bytes, size_t bytes_len, size_t *start, size_t *count);

/* Where the indices stand; start and count are 0 where the record is refused or withdrawn. */
void foldrima_indices_part(const uint8_t *bytes, size_t bytes_len, size_t *start, size_t *count);

/* Where the signs stand; start and count are 0 where the record is refused or withdrawn. Where it has no signs, start is its length and count 0. */
void foldrima_signs_part(const uint8_t *bytes, size_t bytes_len, size_t *start, size_t *count);

/* The radii of a record (dimension / 2): withdrawn, the reading's refusals, 6. */
void foldrima_read_radii(const uint8_t *bytes, size_t bytes_len, float *out, size_t out_len, uint32_t *number, size_t *place);

/* The indices of a record (dimension / 2): withdrawn, the reading's refusals, 6. */
void foldrima_read_indices(const uint8_t *bytes, size_t bytes_len, uint16_t *out, size_t out_len, uint32_t *number, size_t *place);

/* The signs of a record (its projections; none where it has no signs): withdrawn, the reading's refusals, 6. */
void foldrima_read_signs(const uint8_t *bytes, size_t bytes_len, int8_t *out, size_t out_len, uint32_t *number, size_t *place);

/* ---- the scan */

/* What a scan counts. */
typedef struct foldrima_tally {
    size_t length;         /* how many hits it keeps at most, 1 to 64 */
    size_t kept;           /* how many it has */
    uint32_t taken;        /* how many records took a number; the next one's number */
    uint32_t refused;      /* how many of these were refused */
    uint32_t withdrawn;    /* how many of these were withdrawn */
    uint64_t comparisons;  /* how many times a new score was compared with a hit's */
} foldrima_tally;

/* A scan: its counts, and its hits in their order, the number and the score of each. */
typedef struct foldrima_scan {
    foldrima_tally tally;
    uint32_t numbers[64];
    float scores[64];
} foldrima_scan;

/* A record among the best of a scan. */
typedef struct foldrima_hit {
    uint32_t number;
    float score;
} foldrima_hit;

/* A scan that keeps so many hits at most, with none taken: 21. Beside a 21 it answers an empty scan of length 1. */
foldrima_scan foldrima_scan_open(size_t length, uint32_t *number, size_t *place);

/* Takes one record under a setup and a query; *value is its score: 22, then foldrima_inner_product_estimate's, of which withdrawn and those behind it
 * have taken a number. */
foldrima_tally foldrima_scan_take(foldrima_tally tally, uint32_t *numbers, size_t numbers_len, float *scores, size_t scores_len, uint8_t mode,
                                  size_t dim, uint8_t bits, size_t projections, uint8_t kind, const float *rotation, size_t rotation_len,
                                  const float *directions, size_t directions_len, const float *matrix, size_t matrix_len, const float *query,
                                  size_t query_len, const uint8_t *bytes, size_t bytes_len, uint32_t *number, size_t *place, float *value);

/* Takes one record by a prepared query: 22, then foldrima_inner_product_estimate_prepared's, of which withdrawn and those behind it have taken a
 * number. */
foldrima_tally foldrima_scan_take_prepared(foldrima_tally tally, uint32_t *numbers, size_t numbers_len, float *scores, size_t scores_len, uint8_t mode,
                                           size_t dim, uint8_t bits, size_t projections, uint8_t kind, const float *directions, size_t directions_len,
                                           const float *rotated, size_t rotated_len, const float *projected, size_t projected_len,
                                           const uint8_t *bytes, size_t bytes_len, uint32_t *number, size_t *place, float *value);

/* Takes many records by a prepared query, all of them or none. Their bytes stand one behind the other, from the first byte on, and ends has the end
 * of each: a record of no bytes has that of the one before it (the first: 0). 22 where fewer numbers are left than records; then the prepared score's
 * checks up to withdrawn, which are made once for all; then 5 for the first end that lies before the one in front of it or behind the bytes, with
 * that end as the place. Each record then takes its number as it would singly: a refusal of its own is counted and not answered. Bytes behind the
 * last end are not looked at. */
foldrima_tally foldrima_scan_take_many(foldrima_tally tally, uint32_t *numbers, size_t numbers_len, float *scores, size_t scores_len, uint8_t mode,
                                       size_t dim, uint8_t bits, size_t projections, uint8_t kind, const float *directions, size_t directions_len,
                                       const float *rotated, size_t rotated_len, const float *projected, size_t projected_len, const uint8_t *bytes,
                                       size_t bytes_len, const size_t *ends, size_t ends_len, uint32_t *number, size_t *place);

/* Gives a scan a smaller length, or leaves it the present one: 25 where the new one is 0 or above the present one. Beside a 25 it answers the tally that
 * it was given. The lists stay as they are, so they are not lent. */
foldrima_tally foldrima_scan_shorten(foldrima_tally tally, size_t length, uint32_t *number, size_t *place);

/* Writes the hits of a scan, in their order: 6. The scan stays as it is, and may take further records. */
void foldrima_scan_close(foldrima_scan scan, foldrima_hit *out, size_t out_len, uint32_t *number, size_t *place);

/* The calls that take records, and the one that shortens, on a foldrima_scan in place. The first two answer 1 where the record took a number and 0 where
 * it did not; the others answer 1 where the records were taken, or the length, and 0 where the call was refused. */
static inline int foldrima_take_into(foldrima_scan *scan, uint8_t mode, size_t dim, uint8_t bits, size_t projections, uint8_t kind,
                                     const float *rotation, size_t rotation_len, const float *directions, size_t directions_len, const float *matrix,
                                     size_t matrix_len, const float *query, size_t query_len, const uint8_t *bytes, size_t bytes_len,
                                     uint32_t *number, size_t *place, float *value)
{
    const uint32_t before = scan->tally.taken;
    scan->tally = foldrima_scan_take(scan->tally, scan->numbers, 64, scan->scores, 64, mode, dim, bits, projections, kind, rotation, rotation_len,
                                     directions, directions_len, matrix, matrix_len, query, query_len, bytes, bytes_len, number, place, value);
    return scan->tally.taken != before;
}

static inline int foldrima_take_prepared_into(foldrima_scan *scan, uint8_t mode, size_t dim, uint8_t bits, size_t projections, uint8_t kind,
                                              const float *directions, size_t directions_len, const float *rotated, size_t rotated_len,
                                              const float *projected, size_t projected_len, const uint8_t *bytes, size_t bytes_len,
                                              uint32_t *number, size_t *place, float *value)
{
    const uint32_t before = scan->tally.taken;
    scan->tally = foldrima_scan_take_prepared(scan->tally, scan->numbers, 64, scan->scores, 64, mode, dim, bits, projections, kind, directions,
                                              directions_len, rotated, rotated_len, projected, projected_len, bytes, bytes_len, number, place, value);
    return scan->tally.taken != before;
}

static inline int foldrima_take_many_into(foldrima_scan *scan, uint8_t mode, size_t dim, uint8_t bits, size_t projections, uint8_t kind,
                                          const float *directions, size_t directions_len, const float *rotated, size_t rotated_len,
                                          const float *projected, size_t projected_len, const uint8_t *bytes, size_t bytes_len, const size_t *ends,
                                          size_t ends_len, uint32_t *number, size_t *place)
{
    scan->tally = foldrima_scan_take_many(scan->tally, scan->numbers, 64, scan->scores, 64, mode, dim, bits, projections, kind, directions,
                                          directions_len, rotated, rotated_len, projected, projected_len, bytes, bytes_len, ends, ends_len, number,
                                          place);
    return *number == 0;
}

static inline int foldrima_shorten(foldrima_scan *scan, size_t length, uint32_t *number, size_t *place)
{
    scan->tally = foldrima_scan_shorten(scan->tally, length, number, place);
    return *number == 0;
}

#ifdef __cplusplus
}
#endif

#endif
