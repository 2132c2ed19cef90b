/* Each refusal of each call, in the order in which the causes are named, and what a refused call leaves: everything as it was.
 * Prints what isn't so, and ends with status 1 where there is something. */
#include <corv/map.h>
#include <stdio.h>
#include <stdlib.h>
#include <string.h>

#define FARTHEST INT64_C(1099511627776)
#define MOST_POINTS 4194304
#define MOST_UPDATES 1048576
#define MOST_LINES 65536

static int faults = 0;

static void is(int line, const char *call, int32_t status, int32_t due) {
    if (status == due) return;
    printf("line %d: %s answers %d where %d is due\n", line, call, (int)status, (int)due);
    faults++;
}

#define IS(due, call) is(__LINE__, #call, (call), (due))
#define HOLDS(fact) is(__LINE__, #fact, !(fact), 0)

static const corv_place origin = {0, 0, 0}, outside = {0, FARTHEST + 1, 0};
static const corv_box all = {{-FARTHEST, -FARTHEST, -FARTHEST}, {FARTHEST + 1, FARTHEST + 1, FARTHEST + 1}};
static const corv_box near_origin = {{-20, -20, -20}, {20, 20, 20}};
static const corv_box turned = {{0, 0, 0}, {9, -1, 9}}, too_wide = {{0, 0, 0}, {0, 0, FARTHEST + 2}};

/* Points in a row, each 10 mm from the next one, so that a tree that takes them in turn gets uneven. */
static corv_point *row(size_t n, int64_t start) {
    corv_point *points = calloc(n, sizeof *points);
    if (!points) abort();
    for (size_t i = 0; i < n; i++) points[i].x = start + 10 * (int64_t)i;
    return points;
}

static corv_totals totals_of(corv_map *map) {
    corv_totals totals;
    IS(CORV_DONE, corv_map_totals(map, &totals));
    return totals;
}

static void a_map_is_made(void) {
    corv_map map = {0};
    IS(CORV_BAD_NUMBER, corv_map_new(0, 1500, &map));
    IS(CORV_BAD_NUMBER, corv_map_new(1000001, 1500, &map));
    IS(CORV_BAD_NUMBER, corv_map_new(200, 15, &map));
    IS(CORV_BAD_NUMBER, corv_map_new(200, 1000001, &map));
    corv_map_free(&map);
    IS(CORV_DONE, corv_map_new(1000000, 16, &map));
    IS(CORV_FULL, corv_map_new(0, 0, &map));
    corv_map_free(&map);
    IS(CORV_DONE, corv_map_new(1, 1000000, &map));
    corv_map_free(&map);
    corv_map_free(&map);
}

static void an_empty_handle_is_told(void) {
    corv_map map = {0};
    corv_view view = {0}, copy = {0};
    corv_frozen frozen = {0}, other = {0};
    corv_job job = {0};
    corv_built built = {0};
    corv_point far = {FARTHEST + 1, 0, 0, 0};
    corv_totals totals;
    uint32_t live;
    uint64_t next = 9;
    char line;
    size_t n = 9;
    IS(CORV_EMPTY, corv_map_add(&map, &far, 1));
    IS(CORV_EMPTY, corv_map_thin(&map, &far, 1));
    IS(CORV_EMPTY, corv_map_delete(&map, &turned, 1));
    IS(CORV_EMPTY, corv_map_suspend(&map, &turned, 1));
    IS(CORV_EMPTY, corv_map_restore(&map, &turned, 1));
    IS(CORV_EMPTY, corv_map_expire(&map, 0));
    IS(CORV_EMPTY, corv_map_count(&map, &turned, &live));
    IS(CORV_EMPTY, corv_map_totals(&map, &totals));
    IS(CORV_EMPTY, corv_map_log(&map, 5, &line, 0, &n, &next));
    HOLDS(n == 0 && next == 5);
    IS(CORV_EMPTY, corv_map_view(&map, &view));
    IS(CORV_EMPTY, corv_view_copy(&view, &copy));
    IS(CORV_EMPTY, corv_view_count(&view, &turned, &live));
    IS(CORV_EMPTY, corv_view_totals(&view, &totals));
    IS(CORV_EMPTY, corv_map_freeze(&map, &frozen));
    IS(CORV_EMPTY, corv_view_freeze(&view, &frozen));
    IS(CORV_EMPTY, corv_view_freeze_box(&view, &turned, &frozen));
    IS(CORV_EMPTY, corv_frozen_copy(&frozen, &other));
    IS(CORV_EMPTY, corv_map_detach(&map, 9, &job));
    IS(CORV_EMPTY, corv_job_build(&job, &built));
    IS(CORV_EMPTY, corv_built_replay(&built));
    IS(CORV_EMPTY, corv_map_swap(&map, &built, 1));
    corv_view_free(&view);
    corv_frozen_free(&frozen);
    corv_job_free(&job);
    corv_built_free(&built);
}

static void an_update_is_refused_whole(corv_map *map) {
    corv_point points[2] = {{1, 2, 3, 4}, {0, 0, -FARTHEST - 1, 0}};
    corv_box boxes[2];
    corv_totals before = totals_of(map);
    boxes[0] = all;
    IS(CORV_OUT_OF_RANGE, corv_map_add(map, points, 2));
    IS(CORV_OUT_OF_RANGE, corv_map_thin(map, points, 2));
    for (int fault = 0; fault < 2; fault++) {
        boxes[1] = fault ? too_wide : turned;
        IS(CORV_BAD_BOX, corv_map_delete(map, boxes, 2));
        IS(CORV_BAD_BOX, corv_map_suspend(map, boxes, 2));
        IS(CORV_BAD_BOX, corv_map_restore(map, boxes, 2));
    }
    corv_totals after = totals_of(map);
    HOLDS(before.updates == after.updates && before.points == after.points);
    HOLDS(before.live == after.live && before.suspended == after.suspended);
    /* No points and no boxes are an update too. */
    IS(CORV_DONE, corv_map_add(map, points, 0));
    IS(CORV_DONE, corv_map_delete(map, boxes, 0));
    HOLDS(totals_of(map).updates == before.updates + 2);
}

/* A map, a view or an index, which are asked alike, an index for the nearest alone. */
typedef struct { corv_map *map; corv_view *view; corv_frozen *frozen; } asked;

static int32_t nearest(asked a, const corv_place *place, uint32_t k, int64_t within, corv_hit *hits, size_t room, size_t *n) {
    if (a.frozen) return corv_frozen_nearest(a.frozen, place, k, within, hits, room, n);
    return a.map ? corv_map_nearest(a.map, place, k, within, hits, room, n) : corv_view_nearest(a.view, place, k, within, hits, room, n);
}

static int32_t each(asked a, const corv_place *places, uint32_t k, corv_hit *hits, size_t room, size_t counted, size_t *n) {
    uint32_t counts[2];
    if (a.frozen) return corv_frozen_nearest_each(a.frozen, places, 2, k, -1, hits, room, counts, counted, n);
    return a.map ? corv_map_nearest_each(a.map, places, 2, k, -1, hits, room, counts, counted, n)
                 : corv_view_nearest_each(a.view, places, 2, k, -1, hits, room, counts, counted, n);
}

static int32_t count(asked a, const corv_box *box, uint32_t *live) {
    return a.map ? corv_map_count(a.map, box, live) : corv_view_count(a.view, box, live);
}

static int32_t inside(asked a, const corv_box *box, uint32_t most, corv_item *items, size_t room, size_t *n) {
    return a.map ? corv_map_inside(a.map, box, most, items, room, n) : corv_view_inside(a.view, box, most, items, room, n);
}

static int32_t ball(asked a, const corv_place *place, uint64_t r, uint32_t most, corv_item *items, size_t room, size_t *n) {
    return a.map ? corv_map_ball(a.map, place, r, most, items, room, n) : corv_view_ball(a.view, place, r, most, items, room, n);
}

static int32_t lonely(asked a, uint64_t r, uint32_t most, uint32_t *found, corv_item *items, size_t room, size_t *n) {
    return a.map ? corv_map_lonely(a.map, r, most, found, items, room, n) : corv_view_lonely(a.view, r, most, found, items, room, n);
}

static int32_t clusters(asked a, uint64_t r, uint32_t most, uint32_t *found, corv_cluster *list, size_t room, size_t *n) {
    return a.map ? corv_map_clusters(a.map, r, most, found, list, room, n) : corv_view_clusters(a.view, r, most, found, list, room, n);
}

static int32_t items_from(asked a, uint32_t from, corv_item *items, size_t room, size_t *n) {
    return a.map ? corv_map_items(a.map, from, items, room, n) : corv_view_items(a.view, from, items, room, n);
}

static int32_t box_items(asked a, const corv_box *box, uint32_t from, corv_item *items, size_t room, size_t *n) {
    return a.map ? corv_map_box_items(a.map, box, from, items, room, n) : corv_view_box_items(a.view, box, from, items, room, n);
}

static int32_t ball_items(asked a, const corv_place *place, uint64_t r, corv_item *items, size_t room, size_t *n) {
    return a.map ? corv_map_ball_items(a.map, place, r, 0, items, room, n) : corv_view_ball_items(a.view, place, r, 0, items, room, n);
}

/* What is answered to this question, or that the handle is empty, where it is. */
#define OR_EMPTY(due) (is_empty ? CORV_EMPTY : (due))

static void is_asked_for_the_nearest(asked a, bool is_empty) {
    corv_hit hits[512];
    corv_place places[2];
    size_t n = 9;
    IS(OR_EMPTY(CORV_BAD_NUMBER), nearest(a, &outside, 0, -1, hits, 0, &n));
    IS(OR_EMPTY(CORV_BAD_NUMBER), nearest(a, &outside, 257, -1, hits, 0, &n));
    IS(OR_EMPTY(CORV_BAD_NUMBER), nearest(a, &outside, 5, 4 * FARTHEST + 1, hits, 0, &n));
    IS(OR_EMPTY(CORV_NO_ROOM), nearest(a, &outside, 5, -1, hits, 4, &n));
    IS(OR_EMPTY(CORV_OUT_OF_RANGE), nearest(a, &outside, 5, -1, hits, 5, &n));
    HOLDS(n == 0);
    IS(OR_EMPTY(CORV_DONE), nearest(a, &origin, 256, 4 * FARTHEST, hits, 512, &n));
    IS(OR_EMPTY(CORV_DONE), nearest(a, &origin, 1, INT64_MIN, hits, 512, &n));
    places[0] = origin, places[1] = outside, n = 9;
    IS(OR_EMPTY(CORV_BAD_NUMBER), each(a, places, 0, hits, 0, 0, &n));
    IS(OR_EMPTY(CORV_NO_ROOM), each(a, places, 5, hits, 9, 2, &n));
    IS(OR_EMPTY(CORV_NO_ROOM), each(a, places, 5, hits, 512, 1, &n));
    IS(OR_EMPTY(CORV_NO_ROOM), each(a, places, 256, hits, 511, 2, &n));
    IS(OR_EMPTY(CORV_OUT_OF_RANGE), each(a, places, 256, hits, 512, 2, &n));
    HOLDS(n == 0);
    places[1] = origin;
    IS(OR_EMPTY(CORV_DONE), each(a, places, 256, hits, 512, 2, &n));
}

static void is_asked_for_boxes(asked a, bool is_empty) {
    corv_item items[256];
    uint32_t live = 9;
    size_t n = 9;
    IS(OR_EMPTY(CORV_BAD_BOX), count(a, &turned, &live));
    IS(OR_EMPTY(CORV_BAD_BOX), count(a, &too_wide, &live));
    HOLDS(live == 0);
    IS(OR_EMPTY(CORV_DONE), count(a, &all, &live));
    IS(OR_EMPTY(CORV_BAD_NUMBER), inside(a, &turned, 0, items, 0, &n));
    IS(OR_EMPTY(CORV_BAD_NUMBER), inside(a, &turned, 257, items, 256, &n));
    IS(OR_EMPTY(CORV_NO_ROOM), inside(a, &turned, 5, items, 4, &n));
    IS(OR_EMPTY(CORV_BAD_BOX), inside(a, &turned, 5, items, 5, &n));
    HOLDS(n == 0);
    IS(OR_EMPTY(CORV_DONE), inside(a, &all, 256, items, 256, &n));
}

static void is_asked_for_neighbours(asked a, bool is_empty) {
    corv_item items[256];
    corv_cluster list[256];
    uint32_t found = 9;
    size_t n = 9;
    IS(OR_EMPTY(CORV_BAD_NUMBER), ball(a, &outside, 5, 0, items, 0, &n));
    IS(OR_EMPTY(CORV_BAD_NUMBER), ball(a, &outside, 5, 257, items, 256, &n));
    IS(OR_EMPTY(CORV_BAD_NUMBER), ball(a, &outside, 4 * FARTHEST + 1, 5, items, 0, &n));
    IS(OR_EMPTY(CORV_NO_ROOM), ball(a, &outside, 5, 5, items, 4, &n));
    IS(OR_EMPTY(CORV_OUT_OF_RANGE), ball(a, &outside, 5, 5, items, 5, &n));
    HOLDS(n == 0);
    IS(OR_EMPTY(CORV_DONE), ball(a, &origin, 4 * FARTHEST, 256, items, 256, &n));
    n = 9;
    IS(OR_EMPTY(CORV_BAD_NUMBER), lonely(a, 5, 0, &found, items, 0, &n));
    IS(OR_EMPTY(CORV_BAD_NUMBER), lonely(a, 5, 257, &found, items, 256, &n));
    IS(OR_EMPTY(CORV_BAD_NUMBER), lonely(a, 4 * FARTHEST + 1, 5, &found, items, 0, &n));
    IS(OR_EMPTY(CORV_NO_ROOM), lonely(a, 5, 5, &found, items, 4, &n));
    HOLDS(n == 0 && found == 0);
    IS(OR_EMPTY(CORV_DONE), lonely(a, 4 * FARTHEST, 256, &found, items, 256, &n));
    n = 9, found = 9;
    IS(OR_EMPTY(CORV_BAD_NUMBER), clusters(a, 5, 0, &found, list, 0, &n));
    IS(OR_EMPTY(CORV_BAD_NUMBER), clusters(a, 5, 257, &found, list, 256, &n));
    IS(OR_EMPTY(CORV_BAD_NUMBER), clusters(a, 4 * FARTHEST + 1, 5, &found, list, 0, &n));
    IS(OR_EMPTY(CORV_NO_ROOM), clusters(a, 5, 5, &found, list, 4, &n));
    HOLDS(n == 0 && found == 0);
    IS(OR_EMPTY(CORV_DONE), clusters(a, 4 * FARTHEST, 256, &found, list, 256, &n));
}

static void is_asked_for_lists(asked a, bool is_empty) {
    corv_item items[9];
    size_t n = 9;
    IS(OR_EMPTY(CORV_DONE), items_from(a, 0, items, 0, &n));
    HOLDS(n == 0);
    IS(OR_EMPTY(CORV_DONE), items_from(a, UINT32_MAX, items, 9, &n));
    HOLDS(n == 0);
    n = 9;
    IS(OR_EMPTY(CORV_BAD_BOX), box_items(a, &turned, 0, items, 9, &n));
    IS(OR_EMPTY(CORV_BAD_BOX), box_items(a, &too_wide, 0, items, 0, &n));
    HOLDS(n == 0);
    IS(OR_EMPTY(CORV_DONE), box_items(a, &all, 0, items, 9, &n));
    n = 9;
    IS(OR_EMPTY(CORV_BAD_NUMBER), ball_items(a, &outside, 4 * FARTHEST + 1, items, 0, &n));
    IS(OR_EMPTY(CORV_OUT_OF_RANGE), ball_items(a, &outside, 4 * FARTHEST, items, 9, &n));
    HOLDS(n == 0);
    IS(OR_EMPTY(CORV_DONE), ball_items(a, &origin, 4 * FARTHEST, items, 9, &n));
}

static void is_asked(corv_map *map, corv_view *view, bool is_empty) {
    asked a = {map, view, NULL};
    is_asked_for_the_nearest(a, is_empty);
    is_asked_for_boxes(a, is_empty);
    is_asked_for_neighbours(a, is_empty);
    is_asked_for_lists(a, is_empty);
}

static void a_view_stays(corv_map *map) {
    corv_view view = {0}, copy = {0};
    corv_point point = {5, 5, 5, 5};
    uint32_t before, after;
    IS(CORV_DONE, corv_map_view(map, &view));
    IS(CORV_FULL, corv_map_view(map, &view));
    IS(CORV_DONE, corv_view_copy(&view, &copy));
    IS(CORV_FULL, corv_view_copy(&view, &copy));
    is_asked(NULL, &copy, false);
    IS(CORV_DONE, corv_view_count(&view, &all, &before));
    IS(CORV_DONE, corv_map_add(map, &point, 1));
    corv_view_free(&view);
    IS(CORV_DONE, corv_view_count(&copy, &all, &after));
    HOLDS(before == after);
    corv_view_free(&copy);
    is_asked(NULL, &copy, true);
}

/* An index stays as it is while the map goes on, and until its last handle is freed. */
static void an_index_stays(corv_map *map) {
    corv_frozen frozen = {0}, copy = {0};
    corv_view view = {0};
    corv_place place = {7, 8, 9};
    corv_point point = {7, 8, 9, 5};
    corv_hit hit;
    size_t n;
    asked first = {NULL, NULL, &frozen}, second = {NULL, NULL, &copy};
    is_asked_for_the_nearest(first, true);
    IS(CORV_DONE, corv_map_view(map, &view));
    IS(CORV_DONE, corv_view_freeze(&view, &frozen));
    IS(CORV_FULL, corv_view_freeze(&view, &frozen));
    IS(CORV_FULL, corv_map_freeze(map, &frozen));
    IS(CORV_FULL, corv_view_freeze_box(&view, &turned, &frozen));
    is_asked_for_the_nearest(first, false);
    corv_frozen_free(&frozen);
    IS(CORV_BAD_BOX, corv_view_freeze_box(&view, &turned, &frozen));
    IS(CORV_BAD_BOX, corv_view_freeze_box(&view, &too_wide, &frozen));
    is_asked_for_the_nearest(first, true);
    IS(CORV_DONE, corv_view_freeze_box(&view, &near_origin, &frozen));
    corv_view_free(&view);
    is_asked_for_the_nearest(first, false);
    IS(CORV_DONE, corv_frozen_copy(&frozen, &copy));
    IS(CORV_FULL, corv_frozen_copy(&frozen, &copy));
    corv_frozen_free(&frozen);
    corv_frozen_free(&frozen);
    is_asked_for_the_nearest(first, true);
    IS(CORV_DONE, corv_map_add(map, &point, 1));
    is_asked_for_the_nearest(second, false);
    IS(CORV_DONE, corv_frozen_nearest(&copy, &place, 1, 0, &hit, 1, &n));
    HOLDS(n == 0);
    IS(CORV_DONE, corv_map_freeze(map, &frozen));
    IS(CORV_DONE, corv_frozen_nearest(&frozen, &place, 1, 0, &hit, 1, &n));
    HOLDS(n == 1 && hit.point.z == 9 && hit.point.intensity == 5);
    corv_frozen_free(&frozen);
    corv_frozen_free(&copy);
}

/* What is found is what was added: numbers, places, intensities and a distance of more than 64 bits. */
static void answers(void) {
    corv_map map = {0};
    corv_point points[3] = {{3, 0, 4, 7}, {FARTHEST, FARTHEST, FARTHEST, 65535}, {3, 4, 0, 8}};
    corv_hit hits[3];
    corv_item items[2];
    corv_box box = {{0, 0, 0}, {10, 10, 10}};
    corv_place corner = {-FARTHEST, -FARTHEST, -FARTHEST};
    size_t n;
    IS(CORV_DONE, corv_map_new(200, 1500, &map));
    IS(CORV_DONE, corv_map_add(&map, points, 3));
    IS(CORV_DONE, corv_map_nearest(&map, &origin, 3, 5, hits, 3, &n));
    HOLDS(n == 2 && hits[0].number == 0 && hits[1].number == 2 && hits[1].dist2_low == 25 && hits[1].dist2_high == 0);
    HOLDS(hits[0].point.z == 4 && hits[0].point.intensity == 7);
    IS(CORV_DONE, corv_map_nearest(&map, &corner, 3, -1, hits, 3, &n));
    /* 3 * 2^82 */
    HOLDS(n == 3 && hits[2].dist2_high == UINT64_C(3) << 18 && hits[2].dist2_low == 0 && hits[2].point.intensity == 65535);
    IS(CORV_DONE, corv_map_inside(&map, &box, 2, items, 2, &n));
    HOLDS(n == 2 && items[1].number == 2 && items[1].point.y == 4 && items[1].point.intensity == 8 && items[1].suspended == 0);
    IS(CORV_DONE, corv_map_suspend(&map, &box, 1));
    HOLDS(totals_of(&map).live == 1 && totals_of(&map).suspended == 2);
    IS(CORV_DONE, corv_map_items(&map, 1, items, 2, &n));
    HOLDS(n == 2 && items[0].number == 1 && items[0].suspended == 0 && items[1].number == 2 && items[1].suspended == 1);
    HOLDS(items[1].point.y == 4 && items[1].point.intensity == 8);
    IS(CORV_DONE, corv_map_box_items(&map, &all, 0, items, 2, &n));
    HOLDS(n == 1 && items[0].number == 1 && items[0].suspended == 0);
    IS(CORV_DONE, corv_map_restore(&map, &box, 1));
    IS(CORV_DONE, corv_map_expire(&map, 2));
    HOLDS(totals_of(&map).live == 1 && totals_of(&map).points == 3 && totals_of(&map).updates == 4);
    corv_map_free(&map);
}

/* A region's numbers are looked at anew at each move, and a refused move leaves it as it was. */
static void a_region_moves(void) {
    corv_region region = {{1, 2, 3}, 4, 5, 6}, was;
    corv_box boxes[3];
    corv_place far_end = {FARTHEST, 100, 0};
    size_t n = 9;
    IS(CORV_BAD_NUMBER, corv_region_begin(1, 0, 1, &outside, &region));
    IS(CORV_BAD_NUMBER, corv_region_begin(2 * FARTHEST + 1, 0, 1, &outside, &region));
    IS(CORV_BAD_NUMBER, corv_region_begin(100, 50, 10, &outside, &region));
    IS(CORV_BAD_NUMBER, corv_region_begin(100, 10, 0, &outside, &region));
    IS(CORV_BAD_NUMBER, corv_region_begin(100, 10, 101, &outside, &region));
    IS(CORV_OUT_OF_RANGE, corv_region_begin(100, 10, 20, &outside, &region));
    HOLDS(region.lo.x == 1 && region.side == 4 && region.ball == 5 && region.step == 6);
    IS(CORV_DONE, corv_region_begin(100, 10, 20, &origin, &region));
    HOLDS(region.lo.x == -50 && region.lo.y == -50 && region.lo.z == -50);
    was = region;
    region.lo.z = 4 * FARTHEST + 1;
    IS(CORV_BAD_NUMBER, corv_region_move(&region, &outside, boxes, 2, &n));
    region = was, region.ball = 50;
    IS(CORV_BAD_NUMBER, corv_region_move(&region, &outside, boxes, 2, &n));
    region = was;
    IS(CORV_NO_ROOM, corv_region_move(&region, &outside, boxes, 2, &n));
    IS(CORV_OUT_OF_RANGE, corv_region_move(&region, &outside, boxes, 3, &n));
    HOLDS(n == 0 && region.lo.x == -50 && region.side == 100 && region.ball == 10 && region.step == 20);
    IS(CORV_DONE, corv_region_move(&region, &origin, boxes, 3, &n));
    HOLDS(n == 0 && region.lo.x == -50);
    /* However far the place is, it moves by one step on an axis: what it leaves is below its new lower faces. */
    IS(CORV_DONE, corv_region_move(&region, &far_end, boxes, 3, &n));
    HOLDS(n == 2 && region.lo.x == -30 && region.lo.y == -30 && region.lo.z == -50);
    HOLDS(boxes[0].lo.x == -50 && boxes[0].hi.x == -30 && boxes[0].lo.y == -50 && boxes[0].hi.y == 50 && boxes[0].hi.z == 50);
    HOLDS(boxes[1].lo.x == -30 && boxes[1].hi.x == 50 && boxes[1].lo.y == -50 && boxes[1].hi.y == -30 && boxes[1].lo.z == -50);
}

/* A map whose tree is uneven, and a job of it in the slot. */
static void detached(corv_map *map, uint32_t slot, corv_job *job) {
    corv_point *points = row(5000, 0);
    IS(CORV_DONE, corv_map_new(200, 16, map));
    IS(CORV_NOTHING_TO_DETACH, corv_map_detach(map, slot, job));
    for (int i = 0; i < 5; i++) IS(CORV_DONE, corv_map_add(map, points + 1000 * i, 1000));
    IS(CORV_BAD_NUMBER, corv_map_detach(map, 0, job));
    IS(CORV_BAD_NUMBER, corv_map_detach(map, 5, job));
    IS(CORV_DONE, corv_map_detach(map, slot, job));
    IS(CORV_FULL, corv_map_detach(map, 9, job));
    free(points);
}

static void a_subtree_is_built_and_swapped_in(void) {
    corv_map map = {0}, none = {0};
    corv_job job = {0}, second = {0};
    corv_built built = {0}, older = {0};
    corv_point *points = row(300, 3);
    detached(&map, 1, &job);
    IS(CORV_DONE, corv_job_build(&job, &older));
    IS(CORV_EMPTY, corv_job_build(&job, &built));
    /* Given out once more, so that the older one is stale. */
    IS(CORV_DONE, corv_map_detach(&map, 1, &job));
    IS(CORV_FULL, corv_job_build(&job, &older));
    IS(CORV_DONE, corv_job_build(&job, &built));
    IS(CORV_STALE, corv_map_swap(&map, &older, 0));
    IS(CORV_STALE, corv_map_swap(&map, &older, 1));
    IS(CORV_EMPTY, corv_map_swap(&none, &built, 0));
    for (int i = 0; i < 300; i++) points[i].x = points[i].x * 16 % 49999;
    IS(CORV_DONE, corv_map_add(&map, points, 300));
    IS(CORV_BEHIND, corv_map_swap(&map, &built, 0));
    IS(CORV_DONE, corv_built_replay(&built));
    IS(CORV_DONE, corv_map_swap(&map, &built, 0));
    IS(CORV_EMPTY, corv_map_swap(&map, &built, 0));
    HOLDS(totals_of(&map).live == 5300);
    corv_built_free(&older);
    if (corv_map_detach(&map, 2, &second) == CORV_DONE) corv_job_free(&second);
    corv_map_free(&map);
    free(points);
}

/* What is given out may outlive the map. */
static void handles_outlive_the_map(void) {
    corv_map map = {0};
    corv_job job = {0};
    corv_built built = {0};
    corv_view view = {0};
    uint32_t live;
    detached(&map, 4, &job);
    IS(CORV_DONE, corv_map_view(&map, &view));
    corv_map_free(&map);
    IS(CORV_DONE, corv_job_build(&job, &built));
    IS(CORV_DONE, corv_view_count(&view, &all, &live));
    HOLDS(live == 5000);
    corv_built_free(&built);
    corv_view_free(&view);
}

/* The map's updates from this one on are these lines, as far as there is this room, and up to this one. */
static void lines_are(int line, corv_map *map, uint64_t from, size_t room, const char *due, uint64_t end) {
    char text[128];
    size_t n = 9;
    uint64_t next = 9;
    is(line, "corv_map_log", corv_map_log(map, from, text, room, &n, &next), CORV_DONE);
    is(line, "next", next == end, true);
    is(line, due, n == strlen(due) && memcmp(text, due, n) == 0, true);
}
#define LINES(...) lines_are(__LINE__, __VA_ARGS__)

static void no_lines(int line, corv_map *map, uint64_t from, size_t room, int32_t due) {
    char text[128];
    size_t n = 9;
    uint64_t next = 9;
    is(line, "corv_map_log", corv_map_log(map, from, text, room, &n, &next), due);
    is(line, "next", n == 0 && next == from, true);
}
#define NO_LINES(...) no_lines(__LINE__, __VA_ARGS__)

static void a_log_is_written(void) {
    static const char first[] = "ikdmap 2 voxel 200 large 1500\n@1 add 1 -2 3 4\n", last[] = "@1 expire 4194304\n";
    corv_map map = {0};
    corv_point point = {1, -2, 3, 4};
    IS(CORV_DONE, corv_map_new(200, 1500, &map));
    LINES(&map, 0, 0, "", 0);
    NO_LINES(&map, 1, 0, CORV_BAD_NUMBER);
    IS(CORV_DONE, corv_map_add(&map, &point, 1));
    IS(CORV_DONE, corv_map_add(&map, &point, 0));
    IS(CORV_DONE, corv_map_expire(&map, UINT32_MAX));
    NO_LINES(&map, 0, strlen(first) - 1, CORV_NO_ROOM);
    LINES(&map, 0, strlen(first), first, 2);
    LINES(&map, 0, strlen(first) + strlen(last) - 1, first, 2);
    LINES(&map, 1, 0, "", 2);
    NO_LINES(&map, 2, strlen(last) - 1, CORV_NO_ROOM);
    LINES(&map, 2, strlen(last), last, 3);
    LINES(&map, 3, 0, "", 3);
    NO_LINES(&map, 4, 0, CORV_BAD_NUMBER);
    NO_LINES(&map, UINT64_MAX, 0, CORV_BAD_NUMBER);
    corv_map_free(&map);
}

static void too_much(void) {
    corv_map map = {0};
    corv_point *points = calloc(MOST_POINTS + 1, sizeof *points);
    if (!points) abort();
    IS(CORV_DONE, corv_map_new(200, 1500, &map));
    IS(CORV_TOO_MANY_POINTS, corv_map_add(&map, points, MOST_POINTS + 1));
    IS(CORV_TOO_MANY_POINTS, corv_map_thin(&map, points, MOST_POINTS + 1));
    IS(CORV_DONE, corv_map_add(&map, points, 1));
    IS(CORV_TOO_MANY_POINTS, corv_map_add(&map, points, MOST_POINTS));
    points[MOST_POINTS].x = FARTHEST + 1;
    IS(CORV_OUT_OF_RANGE, corv_map_add(&map, points, MOST_POINTS + 1));
    for (uint32_t i = 1; i < MOST_UPDATES; i++) IS(CORV_DONE, corv_map_expire(&map, 0));
    IS(CORV_TOO_MANY_UPDATES, corv_map_add(&map, points, MOST_POINTS));
    IS(CORV_TOO_MANY_UPDATES, corv_map_thin(&map, points, 1));
    IS(CORV_TOO_MANY_UPDATES, corv_map_delete(&map, &all, 1));
    IS(CORV_TOO_MANY_UPDATES, corv_map_suspend(&map, &all, 1));
    IS(CORV_TOO_MANY_UPDATES, corv_map_restore(&map, &all, 1));
    IS(CORV_TOO_MANY_UPDATES, corv_map_expire(&map, 1));
    HOLDS(totals_of(&map).updates == MOST_UPDATES && totals_of(&map).live == 1);
    LINES(&map, MOST_LINES - 1, 128, "@1 expire 0\n", MOST_LINES);
    NO_LINES(&map, MOST_LINES, 0, CORV_TOO_MANY_UPDATES);
    NO_LINES(&map, MOST_UPDATES - 1, 128, CORV_TOO_MANY_UPDATES);
    LINES(&map, MOST_UPDATES, 0, "", MOST_UPDATES);
    NO_LINES(&map, MOST_UPDATES + 1, 0, CORV_BAD_NUMBER);
    corv_map_free(&map);
    free(points);
}

int main(void) {
    corv_map map = {0};
    a_map_is_made();
    an_empty_handle_is_told();
    is_asked(&map, NULL, true);
    IS(CORV_DONE, corv_map_new(200, 1500, &map));
    an_update_is_refused_whole(&map);
    is_asked(&map, NULL, false);
    a_view_stays(&map);
    an_index_stays(&map);
    corv_map_free(&map);
    answers();
    a_region_moves();
    a_subtree_is_built_and_swapped_in();
    handles_outlive_the_map();
    a_log_is_written();
    too_much();
    return faults != 0;
}
