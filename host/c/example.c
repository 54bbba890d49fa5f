/*
 * Packs three indices, writes a record, scores it, is refused once, meets a withdrawn position, scores a record with a norm, and one of a board of six
 * under a stored rotation.
 *
 *     (cd crates/capi && rt lib)
 *     cc -I include host/c/example.c crates/capi/out/libcapi.a -o example && ./example
 */
#include <stdio.h>

#include "foldrima.h"

int main(void)
{
    uint32_t number;
    size_t place;

    const uint16_t indices[3] = {1, 2, 3};
    uint8_t packed[1];
    foldrima_pack_indices(indices, 3, 2, packed, 1, &number, &place);
    printf("packed: %u %zu, %02X\n", number, place, packed[0]);

    /* Dimension 2, 1 bit: one radius, one index. */
    const float radius[1] = {1.0f};
    const uint16_t index[1] = {1};
    uint8_t record[11];
    foldrima_write_record(FOLDRIMA_F32, 2, 1, FOLDRIMA_POLAR_ONLY, 0, 0, 1.0f, radius, 1, index, 1, NULL, 0, record, 11, &number, &place);
    printf("record: %u %zu,", number, place);
    for (int i = 0; i < 11; i++)
        printf(" %02X", record[i]);

    /* Indices 0 and 1 stand for the angles -PI and 0. */
    const float signs[2] = {1.0f, 1.0f}, directions[4] = {-1.0f, 0.0f, 1.0f, 0.0f}, query[2] = {3.0f, 4.0f};
    float score = -1.0f;
    foldrima_inner_product_estimate(FOLDRIMA_POLAR_ONLY, 2, 1, 0, FOLDRIMA_FAST_HADAMARD, signs, 2, directions, 4, NULL, 0, query, 2, record, 11, &number,
                                    &place, &score);
    printf("\nscore: %u %zu, %.6f\n", number, place, score);

    /* A record cut short: 13 at the length found, and the score stays. */
    foldrima_inner_product_estimate(FOLDRIMA_POLAR_ONLY, 2, 1, 0, FOLDRIMA_FAST_HADAMARD, signs, 2, directions, 4, NULL, 0, query, 2, record, 10, &number,
                                    &place, &score);
    printf("refused: %u %zu, %.6f\n", number, place, score);
    if (number != FOLDRIMA_MALFORMED_LENGTH)
        return 1;

    /* A record of no bytes: the position is withdrawn, and the score stays. */
    foldrima_inner_product_estimate(FOLDRIMA_POLAR_ONLY, 2, 1, 0, FOLDRIMA_FAST_HADAMARD, signs, 2, directions, 4, NULL, 0, query, 2, NULL, 0, &number,
                                    &place, &score);
    printf("withdrawn: %u %zu, %.6f\n", number, place, score);
    if (number != FOLDRIMA_WITHDRAWN)
        return 1;

    /* One projection, and a record with its sign and the norm 2.5 of its source, which the residual is scaled with. */
    const float row[2] = {1.0f, 0.0f};
    const int8_t sign[1] = {1};
    uint8_t normed[20], mode, profile, bits, has_norm;
    size_t dim, projections;
    float min, max, norm;
    foldrima_write_record(FOLDRIMA_F32, 2, 1, FOLDRIMA_POLAR_WITH_QJL, 1, 1, 2.5f, radius, 1, index, 1, sign, 1, normed, 20, &number, &place);
    foldrima_read_record(normed, 20, &number, &place, &mode, &profile, &dim, &bits, &projections, &min, &max, &has_norm, &norm);
    printf("norm: %u %zu, %u %.6f\n", number, place, has_norm, norm);
    foldrima_inner_product_estimate(FOLDRIMA_POLAR_WITH_QJL, 2, 2, 1, FOLDRIMA_FAST_HADAMARD, signs, 2, directions, 4, row, 2, query, 2, normed, 20,
                                    &number, &place, &score);
    printf("score: %u %zu, %.6f\n", number, place, score);
    if (number != 0)
        return 1;

    /* Six features, and a matrix, column by column, that puts each one place further. Index 1 takes the first value of each pair: features 5, 1, 3. */
    float turn[36] = {0.0f};
    for (int j = 0; j < 6; j++)
        turn[6 * j + (j + 1) % 6] = 1.0f;
    const float radii[3] = {1.0f, 2.0f, 3.0f}, features[6] = {0.0f, 1.0f, 2.0f, 3.0f, 4.0f, 5.0f};
    const uint16_t ones[3] = {1, 1, 1};
    uint8_t six[19];
    foldrima_write_record(FOLDRIMA_F32, 6, 1, FOLDRIMA_POLAR_ONLY, 0, 0, 1.0f, radii, 3, ones, 3, NULL, 0, six, 19, &number, &place);
    foldrima_inner_product_estimate(FOLDRIMA_POLAR_ONLY, 6, 1, 0, FOLDRIMA_STORED, turn, 36, directions, 4, NULL, 0, features, 6, six, 19, &number,
                                    &place, &score);
    printf("stored: %u %zu, %.6f\n", number, place, score);
    return number != 0 || score != 16.0f;
}
