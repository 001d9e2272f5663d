/* Kartsodi: lane queries for road-junction plans. The five public calls, for callers in C99 and C++ on x86-64 Linux.
 *
 * Link libkartsodi.a, which `c/build` writes to target/staticlib; it needs nothing but memset and memcpy. c/example.c asks every call once.
 *
 * A call takes a plan file's bytes (docs/FORMAT.md, "The plan file"), the fields of one query, the eleven tables to work in and, for a route and an
 * advance, the lists for the answer. It answers every input, however long each piece of memory is: with number 0 and the one answer that the proved
 * definitions give, or with the first number that says why there is none, all other fields zero (docs/NUMBERS.md).
 *
 * Memory: a call reads and writes only what is lent to it, keeps no pointer and allocates nothing. The caller owns everything. On return the tables
 * hold the plan, so that they may be looked at, and entries past it are as before; after numbers 1 to 8 they are all as before. They need no set
 * values and may be lent again, for any file. List entries past an answer, and the lists of a refused query, are as before.
 * What the caller owes: each pointer is aligned for its type and is not null, also where its length is 0; lengths count entries, not bytes;
 * no two pieces of memory lent to one call overlap. A call takes up to 342 kilobytes of stack; a thread with 400 is safe.
 *
 * Threads: there is no state. Calls may run at the same time where each is lent its own tables and lists; a file may be shared.
 * Floats: the processor rounds to nearest and keeps subnormal numbers, as it does unless a program changes that (-ffast-math at linking does).
 */
#ifndef KARTSODI_H
#define KARTSODI_H

#include <stddef.h>
#include <stdint.h>

#ifdef __cplusplus
extern "C" {
#endif

/* The version. It is set here, and in the Cargo.toml of rust/ and of tool/, since cargo takes it from nowhere else; plan-run and the pkg-config file
 * have it from here, and .ci/test-install sees that all agree. */
#define KARTSODI_VERSION "0.1.0"
#define KARTSODI_VERSION_MAJOR 0
#define KARTSODI_VERSION_MINOR 1
#define KARTSODI_VERSION_PATCH 0

/* The most that a plan may hold. */
#define KARTSODI_MAX_FILE 65536 /* bytes */
#define KARTSODI_MAX_LANES 256
#define KARTSODI_MAX_POINTS 4096
#define KARTSODI_MAX_LINKS 2048
#define KARTSODI_MAX_SECTIONS 64
#define KARTSODI_MAX_STATIONS 4096
#define KARTSODI_MAX_PLACES 256

/* Lists of these sizes are what the program plan-run lends: lanes of a chain, points of a route, positions of an advance. A chain has no more
 * lanes; an answer with more points or positions gets number 14, and longer lists may be lent for it. */
#define KARTSODI_CHAIN 257
#define KARTSODI_ROUTE_POINTS 4096
#define KARTSODI_POSITIONS 256

/* The numbers. docs/NUMBERS.md says of each what to do. */
enum {
    KARTSODI_OK = 0,
    KARTSODI_SHORT_TABLE = 1,      /* a table is shorter than its limit; not with KARTSODI_LEND */
    KARTSODI_LONG_FILE = 2,        /* 2 to 8: the file is no plan */
    KARTSODI_CUT_RECORD = 3,
    KARTSODI_WRONG_RECORD = 4,
    KARTSODI_OUT_OF_RANGE = 5,     /* a field of the file, or the side asked for */
    KARTSODI_PAST_LIMIT = 6,
    KARTSODI_STANDS_TWICE = 7,
    KARTSODI_MISSING = 8,
    KARTSODI_NOT_A_POINT = 9,      /* a coordinate asked for is not finite */
    KARTSODI_NONE_DRIVES = 10,
    KARTSODI_NO_WAY = 11,
    KARTSODI_NOT_ON_A_LANE = 12,   /* the lane is unknown or has no place, or s is not within its section */
    KARTSODI_NOT_A_DISTANCE = 13,  /* the distance is not finite */
    KARTSODI_TOO_MUCH = 14,        /* more than 1,024 branch keys, or an answer longer than a list lent for it */
    KARTSODI_NONE_BESIDE = 15
};

/* What a number says, in the words of docs/NUMBERS.md; of every number something. */
static inline const char *kartsodi_words(size_t number)
{
    switch (number) {
    case KARTSODI_OK:
        return "an answer without fault";
    case KARTSODI_SHORT_TABLE:
        return "a table lent to a public call is shorter than its limit";
    case KARTSODI_LONG_FILE:
        return "the file is longer than 65,536 bytes";
    case KARTSODI_CUT_RECORD:
        return "a record has no whole header, or runs past the file's end";
    case KARTSODI_WRONG_RECORD:
        return "a record's kind is unknown, or its length does not fit its kind and counts";
    case KARTSODI_OUT_OF_RANGE:
        return "a field is out of its range";
    case KARTSODI_PAST_LIMIT:
        return "a record passes a limit";
    case KARTSODI_STANDS_TWICE:
        return "a lane, a section, a lane's place, or an OpenDRIVE number within a section stands twice";
    case KARTSODI_MISSING:
        return "a link's 'from', a place's lane or section is missing, or a placed lane has another number of points than its section has stations";
    case KARTSODI_NOT_A_POINT:
        return "a coordinate of a route or nearest-lane query is not finite";
    case KARTSODI_NONE_DRIVES:
        return "no lane of the plan drives";
    case KARTSODI_NO_WAY:
        return "the goal does not lie ahead on the start's own lane, and no chain of successors and neighbours leads to it";
    case KARTSODI_NOT_ON_A_LANE:
        return "the lane is unknown or has no place, or s is not within its section; of a pose, the lane is unknown";
    case KARTSODI_NOT_A_DISTANCE:
        return "the distance is not finite";
    case KARTSODI_TOO_MUCH:
        return "more than 1,024 keys of an advance, or the answer is longer than a list lent for it";
    case KARTSODI_NONE_BESIDE:
        return "no lane is on that side";
    default:
        return "no number of this version";
    }
}

enum { KARTSODI_LEFT = 0, KARTSODI_RIGHT = 1 };
enum { KARTSODI_REACHED = 0, KARTSODI_DEAD_END = 1 };

/* Metres. A lane is given and answered by its number in the plan. */
typedef struct {
    float x, y, z;
} kartsodi_point;

typedef struct {
    size_t number;
    kartsodi_point position;
    kartsodi_point heading;
} kartsodi_posed;

typedef struct {
    size_t number;
    size_t lane;
    float s; /* arc length along the lane */
    kartsodi_point point;
    float offset; /* how far the point asked for lies to the left of the lane; below 0, to the right */
} kartsodi_nearest_answer;

typedef struct {
    size_t number;
    size_t lanes;  /* of the chain */
    size_t points;
    float length;  /* the cost of the chain, 0 for one lane */
} kartsodi_route_answer;

typedef struct {
    size_t number;
    size_t keys;      /* how many branch keys were entered */
    size_t positions;
} kartsodi_advanced;

typedef struct {
    size_t number;
    size_t lane;
    double s, offset;
} kartsodi_beside_answer;

/* The tables, of the sizes of the limits: flat rows from the first entry on. 218 kilobytes. */
typedef struct {
    size_t lanes[6 * KARTSODI_MAX_LANES];       /* number, type, direction, ends, first point, points */
    float points[3 * KARTSODI_MAX_POINTS];      /* x, y, z */
    float ends[6 * KARTSODI_MAX_LANES];         /* start and end tangent, zeros for a lane without */
    size_t fans[5 * KARTSODI_MAX_LANES];        /* first link, successors, predecessors, neighbours, the place's row or 256 */
    size_t links[2 * KARTSODI_MAX_LINKS];       /* the number of the lane led to, its row or 256 */
    size_t sections[4 * KARTSODI_MAX_SECTIONS]; /* road, index, first station, stations */
    double bounds[2 * KARTSODI_MAX_SECTIONS];   /* start, end */
    double stations[KARTSODI_MAX_STATIONS];
    size_t places[3 * KARTSODI_MAX_PLACES];     /* the lane's row, the section's row, OpenDRIVE lane number plus 2^31 */
    float cumulative[KARTSODI_MAX_POINTS];      /* arc length at each point */
    float tangents[3 * KARTSODI_MAX_POINTS];    /* x, y, z at each point */
} kartsodi_tables;

/* The parameters of a call for the tables, and the arguments for them out of a `kartsodi_tables *`. KARTSODI_LEND evaluates its argument eleven
 * times, so it should be one without effects, as &tables. KARTSODI_ARRAY is for arrays: a pointer has no length. */
#define KARTSODI_TABLES                                                                                       \
    size_t *lanes, size_t lanes_length, float *points, size_t points_length, float *ends, size_t ends_length, \
    size_t *fans, size_t fans_length, size_t *links, size_t links_length,                                     \
    size_t *sections, size_t sections_length, double *bounds, size_t bounds_length,                           \
    double *stations, size_t stations_length, size_t *places, size_t places_length,                           \
    float *cumulative, size_t cumulative_length, float *tangents, size_t tangents_length
#define KARTSODI_ARRAY(a) (a), sizeof(a) / sizeof *(a)
#define KARTSODI_LEND(t)                                                                                           \
    KARTSODI_ARRAY((t)->lanes), KARTSODI_ARRAY((t)->points), KARTSODI_ARRAY((t)->ends), KARTSODI_ARRAY((t)->fans), \
    KARTSODI_ARRAY((t)->links), KARTSODI_ARRAY((t)->sections), KARTSODI_ARRAY((t)->bounds),                        \
    KARTSODI_ARRAY((t)->stations), KARTSODI_ARRAY((t)->places), KARTSODI_ARRAY((t)->cumulative), KARTSODI_ARRAY((t)->tangents)

/* The place and the heading on a lane at the arc length s; s before or past the lane gives its ends. Numbers 1 to 8, and 12 for an unknown lane. */
kartsodi_posed kartsodi_pose(const uint8_t *file, size_t file_length, size_t lane, float s, KARTSODI_TABLES);

/* The driving lane nearest to a point. Numbers 1 to 10. */
kartsodi_nearest_answer kartsodi_nearest_lane(const uint8_t *file, size_t file_length, float x, float y, float z, KARTSODI_TABLES);

/* The route from the lane nearest to one point to the lane nearest to another. Numbers 1 to 11 and 14.
 * chain: the numbers of its lanes. waypoints: x, y, z of its points. */
kartsodi_route_answer kartsodi_route(const uint8_t *file, size_t file_length, float x, float y, float z, float to_x, float to_y, float to_z,
    KARTSODI_TABLES, size_t *chain, size_t chain_length, float *waypoints, size_t waypoints_length);

/* Every place `distance` metres on from s and offset on a lane, by every branch; below 0, backward. Numbers 1 to 8, 12, 13 and 14.
 * rows: of each position KARTSODI_REACHED or KARTSODI_DEAD_END, and its lane. metres: its s, its offset and the metres short, 0 where reached. */
kartsodi_advanced kartsodi_advance(const uint8_t *file, size_t file_length, size_t lane, double s, double offset, double distance,
    KARTSODI_TABLES, size_t *rows, size_t rows_length, double *metres, size_t metres_length);

/* The place beside s on a lane, on its KARTSODI_LEFT or KARTSODI_RIGHT. Numbers 1 to 8, 12 and 15; 5 for another side. */
kartsodi_beside_answer kartsodi_beside(const uint8_t *file, size_t file_length, size_t lane, double s, size_t side, KARTSODI_TABLES);

#ifdef __cplusplus
}
#endif

#endif
