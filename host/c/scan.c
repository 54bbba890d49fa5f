/*
 * The best three of nine records: taken singly by a query, singly by a prepared one, and many at once; with one refused, one withdrawn, and a query that is
 * refused and numbers nothing. A copy is shortened. The scan is closed into a list of hits, which is printed.
 *
 *     (cd crates/capi && rt lib)
 *     cc -I include host/c/scan.c crates/capi/out/libcapi.a -o scan && ./scan
 *
 * Ends with 1 where an answer is not the expected one.
 */
#include <math.h>
#include <stdio.h>
#include <string.h>

#include "foldrima.h"

/* Where the fields stand; a test of host/foldrima holds the same of Rust. */
_Static_assert(sizeof(foldrima_tally) == 40 && sizeof(foldrima_scan) == 552 && sizeof(foldrima_hit) == 8, "sizes");
_Static_assert(offsetof(foldrima_tally, length) == 0 && offsetof(foldrima_tally, kept) == 8 && offsetof(foldrima_tally, taken) == 16, "tally");
_Static_assert(offsetof(foldrima_tally, refused) == 20 && offsetof(foldrima_tally, withdrawn) == 24 && offsetof(foldrima_tally, comparisons) == 32, "tally");
_Static_assert(offsetof(foldrima_scan, tally) == 0 && offsetof(foldrima_scan, numbers) == 40 && offsetof(foldrima_scan, scores) == 296, "scan");
_Static_assert(offsetof(foldrima_hit, number) == 0 && offsetof(foldrima_hit, score) == 4, "hit");

/* Dimension 2, 1 bit: indices 0 and 1 stand for the angles -PI and 0. */
#define SETUP FOLDRIMA_POLAR_ONLY, 2, 1, 0, FOLDRIMA_FAST_HADAMARD
#define TABLES signs, 2, directions, 4, NULL, 0
#define PREPARED directions, 4, rotated, 2, NULL, 0

enum { SIZE = 11 }; /* bytes of a record */

static const float signs[2] = {1.0f, 1.0f}, directions[4] = {-1.0f, 0.0f, 1.0f, 0.0f}, query[2] = {3.0f, 4.0f};
static float rotated[2];
static uint32_t number;
static size_t place;
static int failed;

static void expect(const char *what, int holds)
{
    if (!holds)
        printf("%s: not as expected, %u at %zu\n", what, number, place), failed = 1;
}

/* Whether the last answer was this one, and the scan's counts are these. */
static int told(const foldrima_scan *scan, size_t length, uint32_t as_number, size_t as_place, size_t kept, uint32_t taken, uint32_t refused,
                uint32_t withdrawn, uint64_t comparisons)
{
    const foldrima_tally tally = scan->tally;
    return number == as_number && place == as_place && tally.length == length && tally.kept == kept && tally.taken == taken && tally.refused == refused &&
           tally.withdrawn == withdrawn && tally.comparisons == comparisons;
}

static void written(uint8_t *out, float radius, uint16_t index)
{
    foldrima_write_record(FOLDRIMA_F32, 2, 1, FOLDRIMA_POLAR_ONLY, 0, 0, 1.0f, &radius, 1, &index, 1, NULL, 0, out, SIZE, &number, &place);
    expect("a record", number == 0);
}

int main(void)
{
    /* Radii 1, 2, 2, 0.5, 2, 3, 1 towards the query or away from it, one behind the other; the scores are the radii times rotated[0], which is 7 / root 2. */
    static const float radii[7] = {1.0f, 2.0f, 2.0f, 0.5f, 2.0f, 3.0f, 1.0f};
    uint8_t records[7 * SIZE];
    for (int i = 0; i < 7; i++)
        written(records + SIZE * i, radii[i], i != 5);
    foldrima_prepare_query(SETUP, TABLES, query, 2, rotated, 2, NULL, 0, &number, &place);
    expect("the query", number == 0 && fabsf(rotated[0] - 4.949747f) < 0.00001f);

    foldrima_scan scan = foldrima_scan_open(65, &number, &place);
    expect("a scan of 65", number == FOLDRIMA_SCAN_LENGTH && place == 0 && scan.tally.length == 1 && scan.tally.taken == 0);
    scan = foldrima_scan_open(3, &number, &place);
    expect("a scan of 3", told(&scan, 3, 0, 0, 0, 0, 0, 0, 0));

    /* Numbers 0 to 3: by the query, by the prepared one, a record cut short, a withdrawn position. */
    float score = -1.0f;
    int numbered = foldrima_take_into(&scan, SETUP, TABLES, query, 2, records, SIZE, &number, &place, &score);
    expect("by the query", numbered && score == rotated[0] && told(&scan, 3, 0, 0, 1, 1, 0, 0, 0));
    numbered = foldrima_take_prepared_into(&scan, SETUP, PREPARED, records + SIZE, SIZE, &number, &place, &score);
    expect("by the prepared query", numbered && score == 2 * rotated[0] && told(&scan, 3, 0, 0, 2, 2, 0, 0, 1));
    numbered = foldrima_take_into(&scan, SETUP, TABLES, query, 2, records, 9, &number, &place, &score);
    expect("a record cut short", numbered && score == 2 * rotated[0] && told(&scan, 3, FOLDRIMA_MALFORMED_LENGTH, 9, 2, 3, 1, 0, 1));
    numbered = foldrima_take_prepared_into(&scan, SETUP, PREPARED, NULL, 0, &number, &place, &score);
    expect("a withdrawn position", numbered && score == 2 * rotated[0] && told(&scan, 3, FOLDRIMA_WITHDRAWN, 0, 2, 4, 1, 1, 1));

    /* A query that is refused numbers nothing, and nor do ends of which one passes the bytes. */
    const float bad[2] = {1.0f, INFINITY};
    numbered = foldrima_take_into(&scan, SETUP, TABLES, bad, 2, records, SIZE, &number, &place, &score);
    expect("a refused query", !numbered && score == 2 * rotated[0] && told(&scan, 3, FOLDRIMA_NON_FINITE_INPUT, 1, 2, 4, 1, 1, 1));
    size_t ends[5] = {11, 22, 33, 44, 56};
    int taken = foldrima_take_many_into(&scan, SETUP, PREPARED, records + 2 * SIZE, 5 * SIZE, ends, 5, &number, &place);
    expect("an end behind the bytes", !taken && told(&scan, 3, FOLDRIMA_DIMENSION_MISMATCH, 56, 2, 4, 1, 1, 1));

    /* Numbers 4 to 8 in one call. The same from here on with lists of three. */
    foldrima_tally tally = scan.tally;
    uint32_t numbers[3];
    float scores[3];
    memcpy(numbers, scan.numbers, sizeof numbers);
    memcpy(scores, scan.scores, sizeof scores);
    ends[4] = 55;
    taken = foldrima_take_many_into(&scan, SETUP, PREPARED, records + 2 * SIZE, 5 * SIZE, ends, 5, &number, &place);
    expect("many", taken && told(&scan, 3, 0, 0, 3, 9, 1, 1, 8));
    for (int i = 2; i < 7; i++) {
        tally = foldrima_scan_take_prepared(tally, numbers, 3, scores, 3, SETUP, PREPARED, records + SIZE * i, SIZE, &number, &place, &score);
        expect("one of many", number == 0 && score == radii[i] * (i == 5 ? -rotated[0] : rotated[0]));
    }
    expect("both ways", tally.length == scan.tally.length && tally.kept == scan.tally.kept && tally.taken == scan.tally.taken &&
                            tally.refused == scan.tally.refused && tally.withdrawn == scan.tally.withdrawn && tally.comparisons == scan.tally.comparisons &&
                            !memcmp(numbers, scan.numbers, sizeof numbers) && !memcmp(scores, scan.scores, sizeof scores));

    /* A copy is shortened: 25 for 0 and above the present length, which itself is allowed; hits beyond the new length are gone, and no score is compared. */
    foldrima_scan shorter = scan;
    for (size_t length = 0; length <= 4; length += 4)
        expect("not shorter", !foldrima_shorten(&shorter, length, &number, &place) && told(&shorter, 3, FOLDRIMA_SCAN_NOT_SHORTER, 0, 3, 9, 1, 1, 8));
    expect("as long", foldrima_shorten(&shorter, 3, &number, &place) && told(&shorter, 3, 0, 0, 3, 9, 1, 1, 8));
    expect("shorter", foldrima_shorten(&shorter, 1, &number, &place) && told(&shorter, 1, 0, 0, 1, 9, 1, 1, 8) && shorter.numbers[0] == 1);
    float equal;
    numbered = foldrima_take_prepared_into(&shorter, SETUP, PREPARED, records + SIZE, SIZE, &number, &place, &equal);
    expect("behind the only hit", numbered && equal == 2 * rotated[0] && told(&shorter, 1, 0, 0, 1, 10, 1, 1, 9) && shorter.numbers[0] == 1);

    /* The scan with lists of three is shortened too, and from then on one place of each is lent. */
    tally = foldrima_scan_shorten(tally, 1, &number, &place);
    expect("lists of three", number == 0 && place == 0 && tally.length == 1 && tally.kept == 1 && tally.taken == 9 && tally.refused == 1 &&
                                 tally.withdrawn == 1 && tally.comparisons == 8);
    uint8_t best[SIZE];
    float most;
    written(best, 3.0f, 1);
    tally = foldrima_scan_take_prepared(tally, numbers, 1, scores, 1, SETUP, PREPARED, best, SIZE, &number, &place, &most);
    expect("a list of one", number == 0 && most == 3 * rotated[0] && tally.length == 1 && tally.kept == 1 && tally.taken == 10 &&
                                tally.comparisons == 9 && numbers[0] == 9 && numbers[1] == 4 && numbers[2] == 6 && scores[0] == most &&
                                scores[1] == 2 * rotated[0]);

    /* All numbers are taken: 22, before the query. */
    foldrima_scan full = scan;
    full.tally.taken = UINT32_MAX;
    numbered = foldrima_take_into(&full, SETUP, TABLES, bad, 2, records, SIZE, &number, &place, &score);
    expect("a full scan", !numbered && score == rotated[0] && number == FOLDRIMA_SCAN_FULL && place == 0 && full.tally.taken == UINT32_MAX &&
                              full.tally.comparisons == 8);

    /* Closing: 6 at the hits kept, and then the hits. */
    foldrima_hit hits[3] = {{77, 7.5f}, {77, 7.5f}, {77, 7.5f}};
    foldrima_scan_close(scan, hits, 2, &number, &place);
    expect("too short a list", number == FOLDRIMA_OUTPUT_LENGTH && place == 3 && hits[0].number == 77 && hits[0].score == 7.5f);
    foldrima_scan_close(scan, hits, scan.tally.kept, &number, &place);
    expect("closing", number == 0 && place == 0);
    for (int i = 0; i < 3; i++) {
        printf("%d: record %u, score %.6f\n", i + 1, hits[i].number, hits[i].score);
        /* Records 1, 4 and 6 have the radius 2: equal scores stand by number. */
        expect("a hit", hits[i].number == (uint32_t[]){1, 4, 6}[i] && hits[i].score == 2 * rotated[0]);
    }
    return failed;
}
