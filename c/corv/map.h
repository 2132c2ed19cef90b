/* The map, for C and C++. Numbers are whole millimetres.
 *
 * A handle (corv_map, corv_view, corv_job, corv_built, corv_frozen) is a struct that is all zeros before the call that fills it, and is
 * filled until the call that frees it, or that takes its content. A refused call returns why, and leaves every handle as it was,
 * except for what is said at corv_map_swap.
 *
 * What the caller must see to: each pointer is to memory of its type that is there for the whole call, is aligned, is not null (also
 * where a length is 0), and overlaps no other argument; memory that a call only writes may contain anything, handles excepted; a
 * handle begins as zeros, is never copied, and its fields are neither read nor written; one call at a time has a handle, and a handle
 * that goes to another thread goes there by a lock, or by that thread's start or join; a handle is freed before its memory goes; no
 * call is made in a signal handler, nor in the forked child of a process with threads; malloc, realloc and free are one allocator's.
 * All else is checked, and a status says so. */
#ifndef CORV_MAP_H
#define CORV_MAP_H
#include <stdbool.h>
#include <stddef.h>
#include <stdint.h>
#ifdef __cplusplus
extern "C" {
#endif

/* A map. */
typedef struct { void *at; bool full; } corv_map;
/* A map as it was when the view was made. */
typedef struct { void *at; bool full; } corv_view;
/* A subtree of a map, handed out to be rebuilt. */
typedef struct { void *at; bool full; } corv_job;
/* That subtree, rebuilt. */
typedef struct { void *at; bool full; } corv_built;
/* The live points of a map or a view, as they were when the index was made. */
typedef struct { void *at; bool full; } corv_frozen;

/* Each number of a place is from -1,099,511,627,776 to 1,099,511,627,776. */
typedef struct { int64_t x, y, z; } corv_place;
typedef struct { int64_t x, y, z; uint16_t intensity; } corv_point;
/* Half-open: a point p is in it where lo <= p < hi on each axis. A number of it may be one greater than a place's. */
typedef struct { corv_place lo, hi; } corv_box;
/* A live point that was found, under its number. Its squared distance is dist2_high * 2^64 + dist2_low. */
typedef struct { corv_point point; uint64_t dist2_high, dist2_low; uint32_t number; } corv_hit;
/* A point of the map, under its number: live where suspended is 0, suspended where it is 1. */
typedef struct { corv_point point; uint32_t number, suspended; } corv_item;
/* A cluster: the least number in it, and how many points it has. */
typedef struct { uint32_t number, points; } corv_cluster;
/* A region of a map that moves with the robot: a cube whose sides have this length, from its corner with the least numbers on. A ball
 * round the robot is to stay clear of its faces, and it moves by a step at a time. Plain numbers, and no handle. */
typedef struct { corv_place lo; uint64_t side, ball, step; } corv_region;
/* How many updates were made, how many points they submitted, and how many of those are live and how many suspended. */
typedef struct { uint64_t updates; uint32_t points, live, suspended; } corv_totals;

/* What a call returns. Where there is more than one cause, it is the first in the order in which a call's comment names them. */
enum {
    CORV_DONE = 0,
    CORV_NO_MEMORY = 1,         /* there was no memory */
    CORV_EMPTY = 2,             /* a handle that should be filled is empty */
    CORV_FULL = 3,              /* a handle that should be empty is filled */
    CORV_BAD_NUMBER = 4,        /* a number is not one that the call takes */
    CORV_NO_ROOM = 5,           /* an array is too short */
    CORV_OUT_OF_RANGE = 6,      /* a number of a place is out of range */
    CORV_BAD_BOX = 7,           /* a number of a box is out of range, or one of hi is below that of lo */
    CORV_TOO_MANY_UPDATES = 8,  /* the map has 1,048,576 updates, or its log would have more than 65,536 lines */
    CORV_TOO_MANY_POINTS = 9,   /* more than 4,194,304 points would have been submitted */
    CORV_NOTHING_TO_DETACH = 10, /* no subtree is to be rebuilt */
    CORV_STALE = 11,            /* the built subtree's place in the map is there no more */
    CORV_BEHIND = 12,           /* more than 64 operations are left to be done on the built subtree */
    CORV_NO_LINE = 13           /* an update can't be written as a line of a log */
};

/* Makes a map without points. Its voxels have edges of 1 to 1,000,000 mm. A subtree is large from `large` nodes on, 16 to 1,000,000:
 * updates rebuild what is smaller, and what is large waits for corv_map_detach. Where nobody calls that, take 1,000,000.
 * FULL, BAD_NUMBER, NO_MEMORY. */
int32_t corv_map_new(uint32_t voxel, uint32_t large, corv_map *map);
/* Frees the handle's content, if there is any, and leaves it empty. So do the other four. */
void corv_map_free(corv_map *map);

/* Updates. A point's number is how many points were submitted before it, from 0, whether they are still in the map or not.
 * EMPTY, OUT_OF_RANGE or BAD_BOX, TOO_MANY_UPDATES, TOO_MANY_POINTS, and at any step NO_MEMORY. */
/* Each point in turn is put in, live. */
int32_t corv_map_add(corv_map *map, const corv_point *points, size_t n);
/* Each point in turn takes a number, and of its voxel the live point that is nearest to the centre stays. */
int32_t corv_map_thin(corv_map *map, const corv_point *points, size_t n);
/* What is live or suspended in each box in turn is dropped for good. */
int32_t corv_map_delete(corv_map *map, const corv_box *boxes, size_t n);
/* What is live in each box in turn is hidden until it is restored. */
int32_t corv_map_suspend(corv_map *map, const corv_box *boxes, size_t n);
/* What is suspended in each box in turn is live again. */
int32_t corv_map_restore(corv_map *map, const corv_box *boxes, size_t n);
/* What is live or suspended under a number below this one is dropped for good. */
int32_t corv_map_expire(corv_map *map, uint32_t number);

/* Questions. Results are written to the front of the array, and how many they are to count, which is 0 where the call is refused. The
 * rest of the array may be overwritten. */
/* The k nearest live points, or all where there are fewer: by distance, then by x, y and z, then by number. k is from 1 to 256,
 * and room at least k. within is the greatest distance that counts, in millimetres, up to 4,398,046,511,104; below 0 there is none.
 * EMPTY, BAD_NUMBER, NO_ROOM, OUT_OF_RANGE, NO_MEMORY (never for k up to 16). */
int32_t corv_map_nearest(corv_map *map, const corv_place *place, uint32_t k, int64_t within, corv_hit *hits, size_t room, size_t *count);
/* The same for each place: the first place's hits, and right behind them the next one's. counts says how many each place has.
 * counts_room is at least n, and room at least n times k. EMPTY, BAD_NUMBER, NO_ROOM, and at any place OUT_OF_RANGE or NO_MEMORY. */
int32_t corv_map_nearest_each(corv_map *map, const corv_place *places, size_t n, uint32_t k, int64_t within, corv_hit *hits, size_t room, uint32_t *counts, size_t counts_room, size_t *count);
/* How many live points are in the box. EMPTY, BAD_BOX. */
int32_t corv_map_count(corv_map *map, const corv_box *box, uint32_t *live);
/* The live points in the box, by number; the first most where there are more. most is from 1 to 256, and room at least that.
 * EMPTY, BAD_NUMBER, NO_ROOM, BAD_BOX, NO_MEMORY. */
int32_t corv_map_inside(corv_map *map, const corv_box *box, uint32_t most, corv_item *items, size_t room, size_t *count);
/* The live points at most r millimetres from the place, by number; the first most where there are more. most is from 1 to 256, r up to
 * 4,398,046,511,104, and room at least most. EMPTY, BAD_NUMBER, NO_ROOM, OUT_OF_RANGE, NO_MEMORY. */
int32_t corv_map_ball(corv_map *map, const corv_place *place, uint64_t r, uint32_t most, corv_item *items, size_t room, size_t *count);
/* How many live points have no other live one within r millimetres, and the first most of them by number. most is from 1 to 256, r up to
 * 4,398,046,511,104, and room at least most; found is 0 where the call is refused. EMPTY, BAD_NUMBER, NO_ROOM, NO_MEMORY. */
int32_t corv_map_lonely(corv_map *map, uint64_t r, uint32_t most, uint32_t *found, corv_item *items, size_t room, size_t *count);
/* How many clusters there are of live points, where two are in one that are at most r millimetres apart, and the first most clusters by
 * their least numbers. Numbers and refusals are as for lonely points. */
int32_t corv_map_clusters(corv_map *map, uint64_t r, uint32_t most, uint32_t *found, corv_cluster *clusters, size_t room, size_t *count);
/* Lists of any length, by number: what has a number from this one on, all of it, or as much as there is room for, which may be nothing.
 * A list that is cut off is gone on with from the number behind its last one. */
/* What is live or suspended. Room for the live and the suspended points of the totals has all. EMPTY, NO_MEMORY. */
int32_t corv_map_items(corv_map *map, uint32_t from, corv_item *items, size_t room, size_t *count);
/* What is live in the box. EMPTY, BAD_BOX, NO_MEMORY. */
int32_t corv_map_box_items(corv_map *map, const corv_box *box, uint32_t from, corv_item *items, size_t room, size_t *count);
/* What is live at most r millimetres from the place, r up to 4,398,046,511,104. EMPTY, BAD_NUMBER, OUT_OF_RANGE, NO_MEMORY. */
int32_t corv_map_ball_items(corv_map *map, const corv_place *place, uint64_t r, uint32_t from, corv_item *items, size_t room, size_t *count);
/* EMPTY. */
int32_t corv_map_totals(corv_map *map, corv_totals *totals);

/* Makes a view of the map as it is now. It stays so while the map changes, and is asked in another thread without a lock.
 * Views of one map are handles of their own: each thread that asks has one. FULL (the view), EMPTY (the map), NO_MEMORY. */
int32_t corv_map_view(corv_map *map, corv_view *view);
/* Makes another view of the same. FULL (the copy), EMPTY (the view), NO_MEMORY. */
int32_t corv_view_copy(corv_view *view, corv_view *copy);
void corv_view_free(corv_view *view);
/* As of a map. */
int32_t corv_view_nearest(corv_view *view, const corv_place *place, uint32_t k, int64_t within, corv_hit *hits, size_t room, size_t *count);
int32_t corv_view_nearest_each(corv_view *view, const corv_place *places, size_t n, uint32_t k, int64_t within, corv_hit *hits, size_t room, uint32_t *counts, size_t counts_room, size_t *count);
int32_t corv_view_count(corv_view *view, const corv_box *box, uint32_t *live);
int32_t corv_view_inside(corv_view *view, const corv_box *box, uint32_t most, corv_item *items, size_t room, size_t *count);
int32_t corv_view_ball(corv_view *view, const corv_place *place, uint64_t r, uint32_t most, corv_item *items, size_t room, size_t *count);
int32_t corv_view_lonely(corv_view *view, uint64_t r, uint32_t most, uint32_t *found, corv_item *items, size_t room, size_t *count);
int32_t corv_view_clusters(corv_view *view, uint64_t r, uint32_t most, uint32_t *found, corv_cluster *clusters, size_t room, size_t *count);
int32_t corv_view_items(corv_view *view, uint32_t from, corv_item *items, size_t room, size_t *count);
int32_t corv_view_box_items(corv_view *view, const corv_box *box, uint32_t from, corv_item *items, size_t room, size_t *count);
int32_t corv_view_ball_items(corv_view *view, const corv_place *place, uint64_t r, uint32_t from, corv_item *items, size_t room, size_t *count);
int32_t corv_view_totals(corv_view *view, corv_totals *totals);

/* A frozen index has the live points of a map or a view as they were when it was made, under their numbers, and follows no update. It is
 * for when many places are searched for before the map changes, as while a scan is fitted to it: each is found sooner, with the same
 * hits. It takes 32 bytes a point, and as much again while it is made, in time of the order of n log n. Unless it is of
 * a box, it keeps nothing of the map's tree. */
/* Makes one of what is live in the map now. FULL (the index), EMPTY (the map), NO_MEMORY. */
int32_t corv_map_freeze(corv_map *map, corv_frozen *frozen);
/* The same of what is live in the view, in any thread. */
int32_t corv_view_freeze(corv_view *view, corv_frozen *frozen);
/* The same, for places in the box, of which alone the points are laid: the view is asked where a nearer one may lie outside, and the index
 * keeps it. A place never needs it that lies in the box, at least `within` from each lower face and more from each upper one.
 * FULL (the index), EMPTY (the view), BAD_BOX, NO_MEMORY. */
int32_t corv_view_freeze_box(corv_view *view, const corv_box *box, corv_frozen *frozen);
/* Makes another handle of the same index, which takes a small block: each thread that asks has one of its own, and asks without a lock.
 * FULL (the copy), EMPTY (the index), NO_MEMORY. */
int32_t corv_frozen_copy(corv_frozen *frozen, corv_frozen *copy);
/* Frees what the handle holds, if anything. The points go with the last handle of the index. */
void corv_frozen_free(corv_frozen *frozen);
/* As of the map or the view that the index was made of, when it was made. EMPTY (no index), and else as there. */
int32_t corv_frozen_nearest(corv_frozen *frozen, const corv_place *place, uint32_t k, int64_t within, corv_hit *hits, size_t room, size_t *count);
int32_t corv_frozen_nearest_each(corv_frozen *frozen, const corv_place *places, size_t n, uint32_t k, int64_t within, corv_hit *hits, size_t room, uint32_t *counts, size_t counts_room, size_t *count);

/* Makes a map of the view's points, to go on with where a map comes to its limits: the suspended points get the numbers from 0 on,
 * and the live ones those behind them, each kind in the order of its numbers. Its updates are counted anew: 3 at most. It can
 * be made in another thread than the map's. FULL (the map), EMPTY (the view), BAD_NUMBER, NO_MEMORY. */
int32_t corv_view_renew(corv_view *view, uint32_t voxel, uint32_t large, corv_map *map);
/* Writes the lines of the log of version 2 that say the map's updates from this one on, which are counted from 0: before the first
 * update's the header, then the lines of whole updates, as far as there is room. next is the first update that isn't written, and is
 * from where the call is refused. So a program that writes what is new behind what it has, from next on, has the log of all updates,
 * which leads to the same map. All updates are caller 1's; one of no point or box has no line, one of more than 262,144 several. An update
 * takes at most 64 bytes, and 52 for each of its points and 91 for each of its boxes. Costs time and memory by what is written and what
 * one update more would take, and counts the lines of all updates before, which reads none of their points.
 * EMPTY, BAD_NUMBER (more than the updates that were made), and then of the update from: NO_LINE (never in a map that these calls
 * made), TOO_MANY_UPDATES (with it there are more than 65,536 lines), NO_ROOM; at any update NO_MEMORY. */
int32_t corv_map_log(corv_map *map, uint64_t from, char *bytes, size_t room, size_t *count, uint64_t *next);

/* Large subtrees are rebuilt while updates go on, on threads of the caller's: detach (in the map's thread), build (in any, while
 * the map goes on), swap (in the map's thread). Where a swap returns BEHIND: replay (in any thread), and swap again. Nothing of it
 * changes a result. */
/* Hands out the first large subtree that is to be rebuilt, since it is unbalanced or half of it is dropped points, under a slot from 1
 * to 4. Where the slot's one isn't swapped in yet, that is handed out once more, and what was built of it is stale.
 * EMPTY (the map), FULL (the job), BAD_NUMBER, NOTHING_TO_DETACH, NO_MEMORY. */
int32_t corv_map_detach(corv_map *map, uint32_t slot, corv_job *job);
/* Rebuilds the subtree, and leaves the job empty. EMPTY (the job), FULL (the built subtree), NO_MEMORY. */
int32_t corv_job_build(corv_job *job, corv_built *built);
void corv_job_free(corv_job *job);
/* Does on the built subtree the operations that the last swap that returned BEHIND handed it, if there are any. EMPTY, NO_MEMORY. */
int32_t corv_built_replay(corv_built *built);
void corv_built_free(corv_built *built);
/* Puts the built subtree in its place, after the operations that it has missed since, and leaves the handle empty. A swap that isn't
 * forced, where force is 0, does at most 64 of those: where there are more it returns BEHIND, and hands them to the built subtree, to
 * be replayed. Where its place is there no more the subtree is STALE, and stays in its handle, only to be freed.
 * When to swap: between the queries and the update. Queries leave time to build or to replay, and add no operation. Right after an
 * update its operations are missing, so a program that tries only there is BEHIND after each scan of more than 64 points.
 * EMPTY (either), STALE, BEHIND, NO_MEMORY. */
int32_t corv_map_swap(corv_map *map, corv_built *built, uint32_t force);

/* Makes the region that begins with the place in its middle. side is from 2 to 2,199,023,255,552, twice the ball is below it, and step is
 * from 1 to the side. BAD_NUMBER, OUT_OF_RANGE. */
int32_t corv_region_begin(uint64_t side, uint64_t ball, uint64_t step, const corv_place *place, corv_region *region);
/* Moves the region to the place: on each axis by a step towards the face that the ball round the place touches or passes, and not at all
 * where it touches none. Writes the boxes of what was in the region and no longer is, to be deleted: three at most, which share no point.
 * room is at least 3. Where it is refused the region stays. BAD_NUMBER (no region has these numbers), NO_ROOM, OUT_OF_RANGE, NO_MEMORY. */
int32_t corv_region_move(corv_region *region, const corv_place *place, corv_box *boxes, size_t room, size_t *count);

#ifdef __cplusplus
}
#endif
#endif
