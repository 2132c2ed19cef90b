/* Each allocation of a map's life is refused in turn. Then the call that wanted it answers CORV_NO_MEMORY, the map is as it was, and the
 * same call, made once more, does what it has to. Linked with -Wl,--wrap=malloc,--wrap=realloc. Prints what isn't so, and ends with
 * status 1 where there is something. */
#include <corv/map.h>
#include <limits.h>
#include <stdio.h>
#include <stdlib.h>

enum { ROW = 300, MOST = 256, LINES = 65536 };

static int faults = 0;
/* How many allocations are left until one is refused; below 0 none is. */
static long left = -1;
/* How many were asked for in the last life, if none was refused. */
static long asked_for = 0;

void *__real_malloc(size_t size);
void *__real_realloc(void *old, size_t size);

void *__wrap_malloc(size_t size) { return left >= 0 && left-- == 0 ? NULL : __real_malloc(size); }
void *__wrap_realloc(void *old, size_t size) { return left >= 0 && left-- == 0 ? NULL : __real_realloc(old, size); }

/* All that a life has, and where answers go. */
typedef struct {
    corv_map map;
    corv_view view, copy;
    corv_frozen frozen, same, box, same_box;
    corv_job job;
    corv_built built;
    corv_point row[ROW];
    corv_place places[2];
    corv_hit hits[2 * MOST];
    corv_item items[MOST];
    corv_cluster clusters[MOST];
    corv_region region;
    corv_box boxes[3];
    uint32_t counts[2], found;
    char lines[LINES];
    size_t n;
    uint64_t next;
} life;

static const corv_box near_origin = {{-9, -9, -9}, {999, 9, 9}}, far_off = {{9000, 0, 0}, {9999, 9, 9}};

static int32_t made(life *l) { return corv_map_new(200, 16, &l->map); }
static int32_t added(life *l) { return corv_map_add(&l->map, l->row, ROW / 3); }
static int32_t added_behind(life *l) { return corv_map_add(&l->map, l->row + ROW / 3, ROW / 3); }
static int32_t added_last(life *l) { return corv_map_add(&l->map, l->row + 2 * ROW / 3, ROW / 3); }
static int32_t thinned(life *l) { return corv_map_thin(&l->map, l->row, ROW); }
static int32_t suspended(life *l) { return corv_map_suspend(&l->map, &near_origin, 1); }
static int32_t restored(life *l) { return corv_map_restore(&l->map, &near_origin, 1); }
static int32_t deleted(life *l) { return corv_map_delete(&l->map, &far_off, 1); }
static int32_t expired(life *l) { return corv_map_expire(&l->map, 5); }
static int32_t seen(life *l) { return corv_map_view(&l->map, &l->view); }
static int32_t copied(life *l) { return corv_view_copy(&l->view, &l->copy); }
static int32_t asked(life *l) { return corv_map_nearest(&l->map, l->places, 200, -1, l->hits, MOST, &l->n); }
static int32_t asked_each(life *l) { return corv_view_nearest_each(&l->copy, l->places, 2, 200, -1, l->hits, 2 * MOST, l->counts, 2, &l->n); }
static int32_t frozen_now(life *l) { return corv_view_freeze(&l->copy, &l->frozen); }
static int32_t frozen_box(life *l) { return corv_view_freeze_box(&l->copy, &near_origin, &l->box); }
static int32_t copied_box(life *l) { return corv_frozen_copy(&l->box, &l->same_box); }
static int32_t asked_box(life *l) { return corv_frozen_nearest(&l->same_box, l->places, 200, -1, l->hits, MOST, &l->n); }
static int32_t copied_frozen(life *l) { return corv_frozen_copy(&l->frozen, &l->same); }
static int32_t asked_frozen(life *l) { return corv_frozen_nearest(&l->frozen, l->places, 200, -1, l->hits, MOST, &l->n); }
static int32_t asked_each_frozen(life *l) { return corv_frozen_nearest_each(&l->same, l->places, 2, 200, -1, l->hits, 2 * MOST, l->counts, 2, &l->n); }
static int32_t listed(life *l) { return corv_map_inside(&l->map, &near_origin, MOST, l->items, MOST, &l->n); }
static int32_t logged(life *l) { return corv_map_log(&l->map, 0, l->lines, LINES, &l->n, &l->next); }
static int32_t listed_in_a_ball(life *l) { return corv_map_ball(&l->map, l->places, 999, MOST, l->items, MOST, &l->n); }
static int32_t listed_alone(life *l) { return corv_map_lonely(&l->map, 5, MOST, &l->found, l->items, MOST, &l->n); }
static int32_t listed_in_clusters(life *l) { return corv_map_clusters(&l->map, 5, MOST, &l->found, l->clusters, MOST, &l->n); }
static int32_t listed_whole(life *l) { return corv_map_items(&l->map, 0, l->items, MOST, &l->n); }
static int32_t listed_by_pages(life *l) { return corv_view_items(&l->copy, 5, l->items, 20, &l->n); }
static int32_t listed_in_a_box(life *l) { return corv_view_box_items(&l->copy, &near_origin, 5, l->items, 20, &l->n); }
static int32_t listed_around(life *l) { return corv_map_ball_items(&l->map, l->places, 999, 0, l->items, MOST, &l->n); }
static int32_t begun(life *l) { return corv_region_begin(100, 10, 20, l->places, &l->region); }
static int32_t moved(life *l) { return corv_region_move(&l->region, l->places + 1, l->boxes, 3, &l->n); }
static int32_t detached(life *l) { return corv_map_detach(&l->map, 1, &l->job); }
static int32_t built(life *l) { return corv_job_build(&l->job, &l->built); }
static int32_t replayed(life *l) { return corv_built_replay(&l->built); }
static int32_t swapped(life *l) { return corv_map_swap(&l->map, &l->built, 0); }
static int32_t forced(life *l) { return corv_map_swap(&l->map, &l->built, 1); }

static const struct {
    const char *name;
    int32_t (*call)(life *);
    int32_t due;
} steps[] = {
    {"new", made, CORV_DONE},          {"add", added, CORV_DONE},           {"add more", added_behind, CORV_DONE},
    {"view", seen, CORV_DONE},         {"add the rest", added_last, CORV_DONE}, {"copy", copied, CORV_DONE},
    {"nearest", asked, CORV_DONE},     {"nearest_each", asked_each, CORV_DONE}, {"inside", listed, CORV_DONE},
    {"freeze", frozen_now, CORV_DONE}, {"copy the index", copied_frozen, CORV_DONE}, {"nearest in it", asked_frozen, CORV_DONE},
    {"nearest_each in it", asked_each_frozen, CORV_DONE}, {"freeze a box", frozen_box, CORV_DONE},
    {"copy the box", copied_box, CORV_DONE}, {"nearest in the box", asked_box, CORV_DONE},
    {"ball", listed_in_a_ball, CORV_DONE}, {"lonely", listed_alone, CORV_DONE}, {"clusters", listed_in_clusters, CORV_DONE},
    {"items", listed_whole, CORV_DONE}, {"a page", listed_by_pages, CORV_DONE}, {"box_items", listed_in_a_box, CORV_DONE},
    {"ball_items", listed_around, CORV_DONE}, {"begin", begun, CORV_DONE}, {"move", moved, CORV_DONE},
    {"suspend", suspended, CORV_DONE}, {"restore", restored, CORV_DONE},    {"detach", detached, CORV_DONE},
    {"build", built, CORV_DONE},       {"add meanwhile", added, CORV_DONE}, {"swap", swapped, CORV_BEHIND},
    {"replay", replayed, CORV_DONE},   {"suspend meanwhile", suspended, CORV_DONE}, {"swap by force", forced, CORV_DONE},
    {"delete", deleted, CORV_DONE},    {"expire", expired, CORV_DONE},      {"thin", thinned, CORV_DONE},
    {"log", logged, CORV_DONE},
};

static corv_totals totals_of(life *l) {
    corv_totals totals = {0, 0, 0, 0};
    corv_map_totals(&l->map, &totals);
    return totals;
}

static bool is_same(corv_totals a, corv_totals b) {
    return a.updates == b.updates && a.points == b.points && a.live == b.live && a.suspended == b.suspended;
}

static void fault(long refused, const char *step, const char *what, int32_t status) {
    printf("allocation %ld refused, %s: %s (%d)\n", refused, step, what, (int)status);
    faults++;
}

/* Lives once, with one allocation refused; tells whether it came to that one. */
static bool live(long refused, corv_totals *end) {
    static life zeros;
    life *l = malloc(sizeof *l);
    bool met = false;
    if (!l) abort();
    *l = zeros;
    for (int i = 0; i < ROW; i++) l->row[i].x = 10 * (int64_t)i;
    l->places[1].x = 100;
    left = refused;
    for (size_t i = 0; i < sizeof steps / sizeof *steps; i++) {
        corv_totals before = totals_of(l);
        int32_t status = steps[i].call(l);
        if (status == CORV_NO_MEMORY) {
            if (met || left != -1) fault(refused, steps[i].name, "memory runs out, and none was refused", status);
            met = true;
            if (!is_same(before, totals_of(l))) fault(refused, steps[i].name, "the map has changed", status);
            status = steps[i].call(l);
        }
        if (status != steps[i].due) fault(refused, steps[i].name, "another answer", status);
    }
    asked_for = refused - left;
    left = -1;
    *end = totals_of(l);
    corv_built_free(&l->built);
    corv_frozen_free(&l->same_box);
    corv_frozen_free(&l->box);
    corv_frozen_free(&l->same);
    corv_frozen_free(&l->frozen);
    corv_job_free(&l->job);
    corv_map_free(&l->map);
    corv_view_free(&l->copy);
    corv_view_free(&l->view);
    free(l);
    return met;
}

int main(void) {
    corv_totals due, end;
    if (live(LONG_MAX, &due)) faults++;
    long count = asked_for, met = 0;
    for (long refused = 0; refused < count && faults < 20; refused++) {
        met += live(refused, &end);
        if (!is_same(due, end)) fault(refused, "the end", "other totals", 0);
    }
    if (met == 0) printf("of %ld refusals none was told\n", count);
    return faults != 0 || met == 0;
}
