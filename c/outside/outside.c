/* The same in C, and the library's version. */
#include <corv/map.h>
#include <corv/version.h>

#include <stdio.h>

int main(void) {
    corv_map map = {0};
    corv_point scan[] = {{1000, 0, 0, 7}, {3000, 0, 0, 8}, {1010, 0, 0, 9}};
    corv_place place = {0, 0, 0};
    corv_hit hits[5];
    size_t count = 0;
    int32_t status = corv_map_new(500, 1500, &map);
    if (status == CORV_DONE) status = corv_map_thin(&map, scan, 3);
    if (status == CORV_DONE) status = corv_map_nearest(&map, &place, 5, 2000, hits, 5, &count);
    corv_map_free(&map);
    if (status != CORV_DONE || count != 1) return 1;
    printf("%zu %u %.0f %s\n", count, (unsigned)hits[0].number, (double)hits[0].point.x, corv_version());
    return 0;
}
