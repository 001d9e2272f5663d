/* Answers the caller's queries over a plan file by the public calls: answer PLAN < QUERIES, one query a line, in the form of `oracle-run --query`
 * (oracle/README.md): lane numbers and sides are decimal, floats are hexadecimal bits. `oracle/replay --query target/c/answer` asks the fixed
 * list. */
#include "kartsodi.h"

#include <inttypes.h>
#include <math.h>
#include <stdio.h>
#include <string.h>

/* One byte more than a plan may have, so that a longer file is seen to be longer. */
static uint8_t file[KARTSODI_MAX_FILE + 1];
static size_t length;
static kartsodi_tables tables;

static float single(uint32_t bits)
{
    float x;
    memcpy(&x, &bits, sizeof x);
    return x;
}

static double wide(uint64_t bits)
{
    double x;
    memcpy(&x, &bits, sizeof x);
    return x;
}

/* The bits of floats; all NaNs are one. */
static void put_singles(const float *all, size_t count)
{
    for (size_t i = 0; i < count; i++) {
        uint32_t bits = 0x7FC00000;
        if (!isnan(all[i])) {
            memcpy(&bits, &all[i], sizeof bits);
        }
        printf(" %08" PRIX32, bits);
    }
    printf("\n");
}

static void put_doubles(const double *all, size_t count)
{
    for (size_t i = 0; i < count; i++) {
        uint64_t bits = 0x7FF8000000000000;
        if (!isnan(all[i])) {
            memcpy(&bits, &all[i], sizeof bits);
        }
        printf(" %016" PRIX64, bits);
    }
    printf("\n");
}

static void answer_pose(size_t lane, float s)
{
    kartsodi_posed a = kartsodi_pose(file, length, lane, s, KARTSODI_LEND(&tables));
    float all[] = {a.position.x, a.position.y, a.position.z, a.heading.x, a.heading.y, a.heading.z};
    printf("pose %zu", a.number);
    put_singles(KARTSODI_ARRAY(all));
}

static void answer_nearest(kartsodi_point p)
{
    kartsodi_nearest_answer a = kartsodi_nearest_lane(file, length, p.x, p.y, p.z, KARTSODI_LEND(&tables));
    float all[] = {a.s, a.point.x, a.point.y, a.point.z, a.offset};
    printf("nearest %zu %zu", a.number, a.lane);
    put_singles(KARTSODI_ARRAY(all));
}

static void answer_route(kartsodi_point p, kartsodi_point q)
{
    static size_t chain[KARTSODI_CHAIN];
    static float waypoints[3 * KARTSODI_ROUTE_POINTS];
    kartsodi_route_answer a = kartsodi_route(file, length, p.x, p.y, p.z, q.x, q.y, q.z, KARTSODI_LEND(&tables),
        KARTSODI_ARRAY(chain), KARTSODI_ARRAY(waypoints));
    printf("route %zu %zu %zu", a.number, a.lanes, a.points);
    put_singles(&a.length, 1);
    for (size_t i = 0; i < a.lanes; i++) {
        printf("lane %zu\n", chain[i]);
    }
    for (size_t i = 0; i < a.points; i++) {
        printf("point");
        put_singles(waypoints + 3 * i, 3);
    }
}

static void answer_advance(size_t lane, double s, double offset, double distance)
{
    static size_t rows[2 * KARTSODI_POSITIONS];
    static double metres[3 * KARTSODI_POSITIONS];
    kartsodi_advanced a = kartsodi_advance(file, length, lane, s, offset, distance, KARTSODI_LEND(&tables), KARTSODI_ARRAY(rows),
        KARTSODI_ARRAY(metres));
    printf("advance %zu %zu %zu\n", a.number, a.keys, a.positions);
    for (size_t i = 0; i < a.positions; i++) {
        int reached = rows[2 * i] == KARTSODI_REACHED;
        printf("%s %zu", reached ? "at" : "end", rows[2 * i + 1]);
        put_doubles(metres + 3 * i, reached ? 2 : 3);
    }
}

static void answer_beside(size_t lane, double s, size_t side)
{
    kartsodi_beside_answer a = kartsodi_beside(file, length, lane, s, side, KARTSODI_LEND(&tables));
    double all[] = {a.s, a.offset};
    printf("beside %zu\nat %zu", a.number, a.lane);
    put_doubles(KARTSODI_ARRAY(all));
}

#define BITS " %" SCNx32
#define WIDE " %" SCNx64

/* Answers a line; whether it is a query. A word too many makes sscanf count one more. */
static int answered(const char *line)
{
    size_t lane, side;
    uint32_t b[6];
    uint64_t w[3];
    char more;
    if (sscanf(line, "pose %zu" BITS " %c", &lane, &b[0], &more) == 2) {
        answer_pose(lane, single(b[0]));
    } else if (sscanf(line, "nearest" BITS BITS BITS " %c", &b[0], &b[1], &b[2], &more) == 3) {
        kartsodi_point p = {single(b[0]), single(b[1]), single(b[2])};
        answer_nearest(p);
    } else if (sscanf(line, "route" BITS BITS BITS BITS BITS BITS " %c", &b[0], &b[1], &b[2], &b[3], &b[4], &b[5], &more) == 6) {
        kartsodi_point p = {single(b[0]), single(b[1]), single(b[2])};
        kartsodi_point q = {single(b[3]), single(b[4]), single(b[5])};
        answer_route(p, q);
    } else if (sscanf(line, "advance %zu" WIDE WIDE WIDE " %c", &lane, &w[0], &w[1], &w[2], &more) == 4) {
        answer_advance(lane, wide(w[0]), wide(w[1]), wide(w[2]));
    } else if (sscanf(line, "beside %zu" WIDE " %zu %c", &lane, &w[0], &side, &more) == 3) {
        answer_beside(lane, wide(w[0]), side);
    } else {
        return 0;
    }
    return 1;
}

int main(int argc, char **argv)
{
    char line[256];
    FILE *in = argc == 2 ? fopen(argv[1], "rb") : NULL;
    if (in == NULL) {
        fprintf(stderr, "usage: answer PLAN < QUERIES, and PLAN can be read\n");
        return 2;
    }
    length = fread(file, 1, sizeof file, in);
    fclose(in);
    while (fgets(line, sizeof line, stdin) != NULL) {
        if (!answered(line)) {
            fprintf(stderr, "answer: no query: %s", line);
            return 1;
        }
    }
    return ferror(stdin) || fflush(stdout) != 0;
}
