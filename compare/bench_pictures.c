/* Pictures that are drawn in the benchmark. */
#include <string.h>

#include "bench.h"

#define FRAMES_OF_FEW 1000
#define SIDE_LO (-MOST_SIDE / 2)
#define SIDE_HI (MOST_SIDE / 2 - 1)
#define ALL_HEIGHT SIDE_LO, SIDE_HI
#define UP_TO_NEWEST LEAST_FRAME, 0

/* Three products of two, three and three primitives. Two wedges lean in the frames, and a box and two drums are cut out of the
   newest ones. */
static const int32_t rows[][ROW_WORDS] = {
    {BOX, SIDE_LO, -8, ALL_HEIGHT, UP_TO_NEWEST},
    {WEDGE, SIDE_LO, 0, ALL_HEIGHT, UP_TO_NEWEST, 8, 3, 1, -700},
    {INTER, 0, 1},
    {BOX, -20, 40, -50, 50, UP_TO_NEWEST},
    {DRUM, 10, 0, 20, 30, -500, 0},
    {DIFF, 3, 4},
    {BOX, 0, 8, ALL_HEIGHT, -800, 0},
    {DIFF, 5, 6},
    {UNION, 2, 7},
    {BOX, 24, SIDE_HI, ALL_HEIGHT, UP_TO_NEWEST},
    {WEDGE, 20, SIDE_HI, ALL_HEIGHT, UP_TO_NEWEST, -30, 20, 5, -2600},
    {INTER, 9, 10},
    {DRUM, 44, 20, 12, 16, -300, 0},
    {DIFF, 11, 12},
    {UNION, 8, 13},
};

/* Of 128 columns and codes; for the half, of the upper 64 codes. Where the manner is the growth from few frames to all, the half
   has all places and the few frames. */
void build_picture(struct load *load, int manner, int is_half)
{
    struct lampholly_window window = {FULL_RANGE};
    struct lampholly_rectangle rectangle = {SIDE_LO, SIDE_HI, ALL_HEIGHT};
    if (manner == FEW_FRAMES || (manner == FEW_TO_ALL_FRAMES && is_half)) {
        window.zlo = 1 - FRAMES_OF_FEW;
        window.zhi = 0;
    }
    if (manner != FEW_TO_ALL_FRAMES && is_half)
        rectangle.ylo = 0;
    load->zones = 1;
    load->zone[0].words = sizeof rows / sizeof rows[0][0];
    memcpy(load->zone[0].word, rows, sizeof rows);
    load->window = window;
    load->rectangle = rectangle;
    load->list_words = peer_expand(load->zone[0].word, load->zone[0].words, window, load->list, sizeof load->list / 8).value;
    load->work = (double)(rectangle.xhi - rectangle.xlo + 1) * (rectangle.yhi - rectangle.ylo + 1);
}
