/* Is a point in a primitive? Shared by the peers that test points. */
#ifndef PEER_SHAPES_H
#define PEER_SHAPES_H

#include "peers.h"

static int in_box(const struct peer_box *box, int64_t x, int64_t y, int64_t z)
{
    return box->lo[X] <= x && x <= box->hi[X] && box->lo[Y] <= y && y <= box->hi[Y] && box->lo[Z] <= z && z <= box->hi[Z];
}

static int in_edges(const struct peer_edge *edge, int64_t x, int64_t y)
{
    return edge[0].a * x + edge[0].b * y + edge[0].c >= 0
        && edge[1].a * x + edge[1].b * y + edge[1].c >= 0
        && edge[2].a * x + edge[2].b * y + edge[2].c >= 0;
}

static int in_primitive(const struct peer_zone *zone, int32_t number, int64_t x, int64_t y, int64_t z)
{
    const int32_t *row = zone->words[number];
    if (row[KIND] == DRUM) {
        int64_t dx = x - row[CENTRE + X], dy = y - row[CENTRE + Y];
        int64_t rx = (int64_t)row[RADIUS + X] * row[RADIUS + X], ry = (int64_t)row[RADIUS + Y] * row[RADIUS + Y];
        return row[BOUND + LO(Z)] <= z && z <= row[BOUND + HI(Z)] && ry * dx * dx + rx * dy * dy <= rx * ry;
    }
    if (row[KIND] == TRIANGLE)
        return in_box(&zone->box[number], x, y, z) && in_edges(zone->edge[number], x, y);
    if (x < row[BOUND + LO(X)] || row[BOUND + HI(X)] < x || y < row[BOUND + LO(Y)] || row[BOUND + HI(Y)] < y
        || z < row[BOUND + LO(Z)] || row[BOUND + HI(Z)] < z)
        return 0;
    return row[KIND] == BOX || row[SLOPE + X] * x + row[SLOPE + Y] * y + row[SLOPE + Z] * z <= row[LIMIT];
}

#endif
