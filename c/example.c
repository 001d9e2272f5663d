/* Asks each public call of Kartsodi once over a plan file: example examples/junction.plan. Its output is examples/junction.calls.
 * In words, what examples/junction.txt draws: two lanes from the west, and exits to the east and to the north. */
#include "kartsodi.h"

#include <stdio.h>
#include <stdlib.h>

/* One byte more than a plan may have, so that a longer file is seen to be longer. */
static uint8_t file[KARTSODI_MAX_FILE + 1];
static size_t length;
static kartsodi_tables tables;

static void read_file(const char *name)
{
    FILE *in = fopen(name, "rb");
    if (in == NULL) {
        perror(name);
        exit(1);
    }
    length = fread(file, 1, sizeof file, in);
    fclose(in);
}

static void print_pose(size_t lane, float s)
{
    kartsodi_posed a = kartsodi_pose(file, length, lane, s, KARTSODI_LEND(&tables));
    if (a.number != KARTSODI_OK) {
        printf("pose: refused with %zu\n", a.number);
        return;
    }
    printf("pose: %.2f m along lane %zu is (%.2f, %.2f, %.2f), heading (%.2f, %.2f, %.2f)\n", s, lane, a.position.x, a.position.y,
        a.position.z, a.heading.x, a.heading.y, a.heading.z);
}

static void print_nearest(kartsodi_point p)
{
    kartsodi_nearest_answer a = kartsodi_nearest_lane(file, length, p.x, p.y, p.z, KARTSODI_LEND(&tables));
    if (a.number != KARTSODI_OK) {
        printf("nearest lane: refused with %zu\n", a.number);
        return;
    }
    printf("nearest lane: of (%.2f, %.2f, %.2f), lane %zu at %.2f m, %.2f m to its left\n", p.x, p.y, p.z, a.lane, a.s, a.offset);
}

static void print_route(kartsodi_point p, kartsodi_point q)
{
    static size_t chain[KARTSODI_CHAIN];
    static float waypoints[3 * KARTSODI_ROUTE_POINTS];
    kartsodi_route_answer a = kartsodi_route(file, length, p.x, p.y, p.z, q.x, q.y, q.z, KARTSODI_LEND(&tables),
        KARTSODI_ARRAY(chain), KARTSODI_ARRAY(waypoints));
    if (a.number != KARTSODI_OK) {
        printf("route: refused with %zu\n", a.number);
        return;
    }
    printf("route: cost %.2f, by lanes", a.length);
    for (size_t i = 0; i < a.lanes; i++) {
        printf(" %zu", chain[i]);
    }
    printf("; %zu points\n", a.points);
    for (size_t i = 0; i < a.points; i++) {
        printf("  (%.2f, %.2f, %.2f)\n", waypoints[3 * i], waypoints[3 * i + 1], waypoints[3 * i + 2]);
    }
}

static void print_advance(size_t lane, double s, double distance)
{
    static size_t rows[2 * KARTSODI_POSITIONS];
    static double metres[3 * KARTSODI_POSITIONS];
    kartsodi_advanced a = kartsodi_advance(file, length, lane, s, 0.0, distance, KARTSODI_LEND(&tables), KARTSODI_ARRAY(rows),
        KARTSODI_ARRAY(metres));
    if (a.number != KARTSODI_OK) {
        printf("advance: refused with %zu\n", a.number);
        return;
    }
    printf("advance: %.2f m from lane %zu at %.2f, %zu keys\n", distance, lane, s, a.keys);
    for (size_t i = 0; i < a.positions; i++) {
        printf("  lane %zu at %.2f", rows[2 * i + 1], metres[3 * i]);
        if (rows[2 * i] == KARTSODI_DEAD_END) {
            printf(", a dead end, %.2f m short", metres[3 * i + 2]);
        }
        printf("\n");
    }
}

static void print_beside(size_t lane, double s, size_t side)
{
    const char *name = side == KARTSODI_LEFT ? "left" : "right";
    kartsodi_beside_answer a = kartsodi_beside(file, length, lane, s, side, KARTSODI_LEND(&tables));
    if (a.number != KARTSODI_OK) {
        printf("beside: refused with %zu\n", a.number);
        return;
    }
    printf("beside: %s of lane %zu at %.2f is lane %zu at %.2f\n", name, lane, s, a.lane, a.s);
}

int main(int argc, char **argv)
{
    kartsodi_point west = {-30.0f, -5.0f, 0.0f};
    kartsodi_point north = {1.75f, 30.0f, 0.0f};
    if (argc != 2) {
        fprintf(stderr, "usage: example PLAN\n");
        return 2;
    }
    read_file(argv[1]);
    print_pose(4, 5.0f);
    print_nearest(west);
    print_route(west, north);
    print_route(north, west);
    print_advance(1, 20.0, 60.0);
    print_beside(1, 20.0, KARTSODI_RIGHT);
    print_beside(1, 20.0, KARTSODI_LEFT);
    return 0;
}
