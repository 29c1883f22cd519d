/* roam.h: meshes of few triangles of terrain, by a proved engine.
 *
 * What C owes, since no library can test it; everything else is tested, and answered by a number:
 * 1. A handle begins as ROAM_EMPTY, or zeroed, and from then on only these functions write it.
 * 2. A full handle has one owner. A copy takes its place, and then the old one is used no more.
 * 3. One call at a time uses a handle. Different handles share nothing.
 * 4. A pointer is valid for what its type and its count say, and is never null, not even where the count is 0.
 * 5. What a call writes overlaps nothing else that the call is given.
 * 6. A handle may move from one thread to another, in an order that the two threads agree on (a join, a lock).
 * 7. No call comes from a signal handler, or from the forked child of a process with threads.
 * 8. The three functions of heap.c come from one allocator, align blocks as malloc does, and take blocks back on any thread
 *    that a handle moves to.
 */
#ifndef ROAM_H
#define ROAM_H
#include <stddef.h>
#include <stdint.h>
#ifdef __cplusplus
extern "C" {
#endif

/* What calls answer. Where two causes hold it is ROAM_IS_EMPTY, else the lesser number, and ROAM_NO_MEMORY last, but in
 * roam_world_unload, where that comes before the others, and roam_world_draws, where ROAM_NOT_THERE comes before ROAM_NO_ROOM.
 * A call that answers anything but ROAM_OK has changed nothing and written nothing, but that roam_world_open loses its page
 * where memory runs out, and that roam_world_draws tells how much room it needs. */
enum roam_answer {
    ROAM_OK = 0,
    ROAM_NO_MEMORY = 1,       /* out of memory */
    ROAM_BAD_GRID = 2,        /* the count of heights is not (2^n + 1)^2 with n from 1 to 14; a terrain is less than its page, or above 2^14 */
    ROAM_BAD_BUDGET = 3,      /* below 2, above 1048576, or above the budget that the engine was opened with */
    ROAM_BAD_SPACING = 4,     /* 0, or above 1024 */
    ROAM_BAD_CAMERA = 5,      /* a coordinate beyond -2^30 .. 2^30 */
    ROAM_BAD_PLANE = 6,       /* a, b or c beyond -2^20 .. 2^20, or d beyond -2^50 .. 2^50 */
    ROAM_TOO_MANY_PLANES = 7, /* six are in force, or more than six are given */
    ROAM_OUTSIDE_GRID = 8,    /* a point or an area that is not in the grid, or an empty area */
    ROAM_BAD_CHANGE = 9,      /* dz beyond -65535 .. 65535 */
    ROAM_WORN = 10,           /* 1000000 frames were made: call roam_renew; or, for good, the camera's way or the counts are at their end */
    ROAM_NO_ROOM = 11,        /* the array has too few places */
    ROAM_IS_EMPTY = 12,       /* the handle is empty */
    ROAM_BAD_TOLERANCE = 13,  /* a tolerance above 65535999 thousandths, or not one for each height */
    ROAM_BAD_MESH = 14,       /* the addresses are not those of a conforming mesh of the grid, depth first */
    ROAM_SHRUNK = 15,         /* the tile had a border point that is not among these */
    ROAM_BAD_PAGE = 16,       /* the page has no place there, or may not go: see roam_world_load and roam_world_unload */
    ROAM_NOT_THERE = 17       /* no such page is loaded */
};

/* Owns an engine, or is empty. The fields are the library's. A handle that nobody has written is nearly always taken as an empty
 * one, since its first word is not that of a full one; do not rest on it. */
typedef struct roam_handle {
    uint64_t mark;
    void *at;
} roam_handle;
#define ROAM_EMPTY { 0, NULL }

/* What a frame did, and what its mesh is. */
typedef struct roam_frame_note {
    uint64_t worst;                /* the greatest priority of a triangle of the mesh */
    uint32_t triangles, vertices;
    uint32_t splits, merges;       /* triangles split and merged in this frame */
    uint32_t blocking;             /* the triangle of priority `worst` whose split does not fit the budget, or 0: all priorities are 0 */
    uint32_t need;                 /* how many triangles the mesh would have with it split */
    uint32_t inside, cut, outside; /* triangles by the planes in force; all are inside where there is none */
    uint32_t spare;                /* 0 */
} roam_frame_note;

/* A view plane: its inside is where a x + b y + c z + d >= 0, in world units. */
typedef struct roam_plane {
    int64_t a, b, c, d;
} roam_plane;

typedef struct roam_changes_note {
    size_t gone, come;
} roam_changes_note;

typedef struct roam_deviation_note {
    uint64_t off, over; /* off / over units of height, exactly; over is side - 1 */
} roam_deviation_note;

typedef struct roam_fit_note {
    uint64_t off, over;            /* how far the mesh found is off, as in roam_deviation_note */
    uint32_t triangles, vertices;
} roam_fit_note;

typedef struct roam_state_note {
    size_t side;          /* points of a side, 2^n + 1 */
    uint64_t way;         /* how far the camera has gone, over the three axes, in world units */
    uint64_t evaluations; /* how often a priority was evaluated */
    uint32_t frames;      /* how many were made */
    uint32_t most;        /* the budget that the engine was opened with */
    uint32_t budget;      /* the budget in force */
    uint32_t planes;      /* planes in force */
} roam_state_note;

/* Opens an engine over `count` heights: rows from the far side (greatest y) to the near one, each from left to right. They are
 * copied. `budget` is the most triangles that a mesh may have, `spacing` the length of a grid step in units of height. All
 * memory of an engine is taken here; no other call takes any but roam_strip, roam_fit and roam_certificate, which give it
 * back. A full handle lets go of its engine, unless the call fails. */
int32_t roam_open(roam_handle *h, const uint16_t *heights, size_t count, uint32_t budget, uint32_t spacing);

/* Lets go of the engine; the handle is empty then. Answers ROAM_OK, or ROAM_IS_EMPTY if it was empty before. */
int32_t roam_close(roam_handle *h);

/* Puts the camera to a place, in world units: x and y are `spacing` to a grid step, z is one to a unit of height; the near
 * left point of the grid is at (0, 0). An engine opens with the camera at (0, 0, 0). */
int32_t roam_camera(roam_handle *h, int64_t x, int64_t y, int64_t z);

/* Adds a view plane: its inside is where a x + b y + c z + d >= 0, in world units. What is outside has priority 0. */
int32_t roam_add_plane(roam_handle *h, int64_t a, int64_t b, int64_t c, int64_t d);
int32_t roam_clear_planes(roam_handle *h);

/* Puts `count` view planes in force, up to six, in the place of those before. For a view that turns: the next frame asks anew for
 * what left the view or came into it alone, where after roam_clear_planes and roam_add_plane it asks for every triangle. Costs a
 * walk over the triangles of the mesh, but for those that lie inside all planes, or outside of one, both before and after. */
int32_t roam_look(roam_handle *h, const roam_plane *planes, size_t count);

/* Lets frames count from 0 on again: what to call where roam_frame answers ROAM_WORN. All else stays, the mesh and the other counts
 * too. It answers ROAM_WORN itself behind more than 2^60 evaluations, splits or merges: at a million a second, in 36,000 years. */
int32_t roam_renew(roam_handle *h);

/* Puts a threshold in force: a triangle whose ratio, 65,536 times its thickness (in half units of height) over its distance and 1
 * (0 outside a plane), is no more than that has priority 0, and is split only where a neighbour forces it. An engine opens with 0, which changes nothing.
 * Where a frame's `worst` is 0, its mesh has the fewest triangles of all whose ratios are at most the threshold; else the budget is
 * not enough for that. A point of the terrain in a triangle of ratio t is off by less than (t + 1) (d + 1) / 131,072 units of height,
 * d the distance: for p pixels take 262,144 p tan(f / 2) / rows, f the field of view from bottom to top, rows those of the screen.
 * A change asks anew for every triangle. */
int32_t roam_threshold(roam_handle *h, uint64_t threshold);

/* Puts a budget in force, from 2 to the one that the engine was opened with. */
int32_t roam_budget(roam_handle *h, uint32_t triangles);

/* Sets the height of a grid point; x and y count grid steps, and (0, 0) is the near left point. */
int32_t roam_set(roam_handle *h, uint32_t x, uint32_t y, uint16_t height);

/* Raises the points from (x0, y0) to (x1, y1), both included, by dz; heights stay within 0 .. 65535. */
int32_t roam_raise(roam_handle *h, uint32_t x0, uint32_t y0, uint32_t x1, uint32_t y1, int32_t dz);

/* Makes the mesh of what stands now: it has no cracks, is within the budget in force, and no other such mesh has a lower `worst`. */
int32_t roam_frame(roam_handle *h, roam_frame_note *out);

/* Writes three indices for each triangle of the last frame's mesh, depth first: apex and the two ends of the base,
 * counterclockwise from above. An index is a place in the array of heights, so one vertex buffer of all grid points serves
 * every frame. `places` is the length of `out`; 3 times the greater of the budgets always suffices. */
int32_t roam_indices(roam_handle *h, uint32_t *out, size_t places, size_t *triangles);

/* Writes the address of each triangle, in the same order: a number from 2 to 2^30 - 1 that names it in every frame. */
int32_t roam_leaves(roam_handle *h, uint32_t *out, size_t places, size_t *triangles);

/* Writes the vertices of the mesh alone, for who does not want all grid points on the card: x, y and z of each, in world units
 * and units of height, as whole numbers of at most 2^24 (a card takes them as floats without loss). They stand by y and then by x,
 * as the v lines of the mesh's OBJ file do. `places` is the length of `out`: three for each of a frame's `vertices`, of which
 * there are never more than triangles and 2. Costs a look at each grid point. */
int32_t roam_positions(roam_handle *h, uint32_t *out, size_t places, size_t *vertices);

/* Writes three numbers for each triangle, depth first and counterclockwise as roam_indices, but by the vertices of
 * roam_positions, counted from 0: index one vertex buffer of these positions. Costs as much as roam_indices. */
int32_t roam_compact(roam_handle *h, uint32_t *out, size_t places, size_t *triangles);

/* Writes what roam_indices writes, with the triangles in the order of one strip: each two neighbours share a whole edge, and so
 * do the last and the first. Takes 4 bytes a triangle and gives them back. Costs a move of each triangle for each level. */
int32_t roam_strip(roam_handle *h, uint32_t *out, size_t places, size_t *triangles);

/* Tells how far the heights are from the last frame's mesh at a grid point, at most, exactly. Costs a step a grid point. */
int32_t roam_deviation(roam_handle *h, roam_deviation_note *out);

/* Finds the mesh of fewest triangles that is off by no more than a tolerance, in thousandths of a unit of height, over the heights
 * as they are, whatever the camera; where it would have more than `budget` triangles, the mesh of that budget that is off by the
 * least. Writes its indices as roam_indices does. A tolerance of 0 asks for the best mesh of the budget; a budget of
 * 2 (side - 1)^2 or more is no bound. `places` has to be 3 times the budget, or 3 times that bound where it is less. Takes 22
 * bytes a grid point, and 16 a triangle of a budget that is a bound, and gives them back. The engine is as before. */
int32_t roam_fit(roam_handle *h, uint32_t thousandths, uint32_t budget, uint32_t *out, size_t places, roam_fit_note *told);

/* Writes the certificate of the best mesh from (x, y, z), without planes, at threshold 0 and of the budget in force, as text: that of
 * `roam certify make` for the same grid, camera, budget and spacing. Up to 2,049 points a side `roam certify check` and
 * checks/certificates.py check it, above that a checker of your own. 48 + 33 times the budget bytes always suffice. Takes the
 * memory and the time of an engine of this grid and budget and its first frame, and gives the memory back. The engine is as
 * before. */
int32_t roam_certificate(roam_handle *h, int64_t x, int64_t y, int64_t z, char *out, size_t room, size_t *length);

/* Writes the addresses that the last frame took out of the mesh and those that it put in, in the order of roam_leaves, and how many
 * they are: none before the first frame. So a copy of the mesh is patched by what changed alone; ask once after each frame. Room for
 * the greater of the budgets always suffices. Costs a step for each of them. */
int32_t roam_changed(roam_handle *h, uint32_t *gone, size_t gone_places, uint32_t *come, size_t come_places, roam_changes_note *out);

/* Of two lists that roam_leaves wrote for one grid: the addresses of the first alone, and of the second alone, and how many
 * there are. Those for which there is no room are counted all the same. */
void roam_changes(const uint32_t *before, size_t befores, const uint32_t *after, size_t afters, uint32_t *gone, size_t gone_room,
                  uint32_t *come, size_t come_room, roam_changes_note *out);

int32_t roam_state(roam_handle *h, roam_state_note *out);

/* Fitters. A fitter owns the heights of one grid and a mesh of it; it has no engine, no camera and no budget. It is for meshes for a
 * tolerance that have to have points of the caller's as vertices: summits, roads, and what a neighbouring tile has on a common side
 * (two tiles of one size that have the same vertices there meet without a crack). Rules and form are those of roam_handle; each
 * function takes a handle of another kind as an empty one.
 *
 * In these calls `required` has places in the array of heights, any of them, in any order and as often as you like; a corner of the
 * grid is a vertex of every mesh. Where `tolerance_count` is 0, `thousandths` (of a unit of height) is the tolerance of all points.
 * Else it is the count of the heights, each point has its own tolerance in `tolerances`, `thousandths` is not looked at, and
 * 0xFFFFFFFF says of a point that it does not count: no data, sea, outside of an area. */
typedef struct roam_fitter {
    uint64_t mark;
    void *at;
} roam_fitter;

/* Copies the heights, rows from the far side as roam_open takes them. The mesh is the two halves of the square. All memory of a
 * fitter is taken here, 6 bytes a point for heights, required points and tolerances, 2 for the triangles that may be split, and 16
 * a point that are written as far as the mesh needs them, 8 for each triangle. ROAM_BAD_GRID, ROAM_NO_MEMORY. A full handle lets go
 * of what it had, unless the call fails. */
int32_t roam_fitter_open(roam_fitter *f, const uint16_t *heights, size_t count);
int32_t roam_fitter_close(roam_fitter *f);

/* The mesh of the fewest triangles within the tolerance in which each required point is a vertex becomes the mesh; writes how many
 * triangles it has. Nothing is measured: roam_fitter_deviation does that. ROAM_OUTSIDE_GRID: a place that is no height's.
 * ROAM_BAD_TOLERANCE: one above 65535999 (and not 0xFFFFFFFF, where each point has its own), or a `tolerance_count` that is
 * neither 0 nor the count of the heights. */
int32_t roam_fitter_fit(roam_fitter *f, uint32_t thousandths, const uint32_t *tolerances, size_t tolerance_count,
                        const uint32_t *required, size_t required_count, uint32_t *triangles);

/* The same, going on from the mesh that is there: what it splits stays split. Where that was the answer of roam_fitter_fit or of this
 * call for the same tolerances, or the same mesh restored, it is the mesh of roam_fitter_fit for all that was required in these
 * calls. Costs what is newly split, and a walk over the mesh. */
int32_t roam_fitter_more(roam_fitter *f, uint32_t thousandths, const uint32_t *tolerances, size_t tolerance_count,
                         const uint32_t *required, size_t required_count, uint32_t *triangles);

/* As roam_indices and roam_leaves, of the fitter's mesh; 3 and 1 times the triangles that were written always suffice. */
int32_t roam_fitter_indices(roam_fitter *f, uint32_t *out, size_t places, size_t *triangles);
int32_t roam_fitter_leaves(roam_fitter *f, uint32_t *out, size_t places, size_t *triangles);

/* Writes the vertices of the mesh on the border of the grid but for its four corners, as places in the array of heights, in rising
 * order, and how many they are. 4 (side - 2) places always suffice. */
int32_t roam_fitter_border(roam_fitter *f, uint32_t *out, size_t places, size_t *count);

/* Tells how far the heights are from the mesh at a grid point, at most, exactly, over all points, those that do not count too. Costs
 * a step a grid point. */
int32_t roam_fitter_deviation(roam_fitter *f, roam_deviation_note *out);

/* The mesh of these addresses becomes the mesh, as roam_fitter_leaves (or roam_leaves) wrote them for a grid of this side: so one
 * fitter goes on with many tiles. Nothing is measured. ROAM_BAD_MESH: they are not a mesh of the grid, listed depth first. */
int32_t roam_fitter_restore(roam_fitter *f, const uint32_t *leaves, size_t count);

/* Opens a fitter, fits, writes the indices, tells of the mesh, and closes it. ROAM_NO_ROOM: `places` is below 3 times the triangles of
 * the mesh that was found. */
int32_t roam_fit_with(const uint16_t *heights, size_t count, uint32_t thousandths, const uint32_t *tolerances,
                      size_t tolerance_count, const uint32_t *required, size_t required_count, uint32_t *out, size_t places,
                      roam_fit_note *told);

/* Writes a mesh of triangles of any shape within an error, as three places in the array of heights for each triangle,
 * counterclockwise, and tells of it: off / over is the greatest distance of a height from the mesh, exactly. Every grid point is
 * within `thousandths` thousandths of a unit of each triangle that holds it, the triangles tile the square without cracks, and
 * they are never more than the fewest right triangles (roam_fit_with), mostly a third to a fifth of them. `effort` is 1 to 9: up
 * to 3 so many rounds, above that searches beyond the error and back, which take some ten times as long at 9. The same
 * arguments give the same mesh. ROAM_NO_ROOM: `places` is below 3 times the triangles that were found; 3 times those of
 * roam_fit_with always suffice. Takes 26 bytes a grid point and some 100 a triangle of that mesh, and gives them back. */
int32_t roam_tin(const uint16_t *heights, size_t count, uint32_t thousandths, uint32_t effort, uint32_t *out, size_t places,
                 roam_fit_note *told);

/* Mosaics: a terrain of tiles that meet. Each tile is a grid of its own, of one side for all, and shares a row of points with its
 * neighbours. A mosaic keeps which border points each tile's mesh has, and tells which tile has to be fitted next and with which
 * points; when none is left, the tiles' meshes are one mesh without cracks. Where each tile is fitted with just what is required
 * of it, that is the mesh of fewest triangles within the tolerance of all that are as fine as the tiles, in whatever order the
 * tiles come. Any number of workers may fit tiles, late or twice; a mosaic takes one call at a time. Column 0 is the left one, row
 * 0 the near one (least y). The rules for handles are those of roam_handle. */
typedef struct roam_mosaic {
    uint64_t mark;
    void *at;
} roam_mosaic;

typedef struct roam_tile_note {
    uint32_t column, row; /* 0 where no tile waits */
    uint32_t waits;       /* 1, or 0: no tile has to be fitted */
    uint32_t spare;       /* 0 */
} roam_tile_note;

typedef struct roam_required_note {
    size_t count;   /* how many points are required */
    uint32_t lacks; /* 1: the tile's mesh lacks one of them, so it has to be fitted; else 0 */
    uint32_t spare; /* 0 */
} roam_required_note;

/* Opens a mosaic of columns x rows tiles of `side` points a side, of which none has a mesh. ROAM_BAD_GRID: side is not 2^n + 1 with n
 * from 1 to 14, or columns or rows are 0 or above 65536. All memory is taken here: a bit for each border point of each tile, and
 * 5 bytes for each border point of one. A full handle lets go of what it had, unless the call fails. */
int32_t roam_mosaic_open(roam_mosaic *m, uint32_t columns, uint32_t rows, uint32_t side);

/* Lets go of the mosaic; the handle is empty then. Answers ROAM_OK, or ROAM_IS_EMPTY if it was empty before. */
int32_t roam_mosaic_close(roam_mosaic *m);

/* Tells the next tile that has to be fitted, the black ones of a chessboard (column + row even) before the others, so that these are
 * fitted once with all that their neighbours have. The search goes on behind the last tile told, round and round: calls without a
 * put between them tell the tiles for as many workers as there are. Costs a look at each border point of each tile that is passed. */
int32_t roam_mosaic_next(roam_mosaic *m, roam_tile_note *out);

/* Writes the places, in the tile's heights, of the points that its mesh has to have: its centre, and the border points that its
 * neighbours' meshes have. 4 (side - 1) places always suffice. ROAM_OUTSIDE_GRID: there is no such tile. */
int32_t roam_mosaic_required(roam_mosaic *m, uint32_t column, uint32_t row, uint32_t *out, size_t places, roam_required_note *told);

/* Keeps the border points of the tile's mesh, by their places in the tile's heights, in any order, repeats allowed, as
 * roam_fitter_border writes them. That the mesh has the centre is taken for granted, and that it has the points that every mesh
 * with these has on the same side. A mesh that was found with less required than is by now is taken: it may be late.
 * ROAM_OUTSIDE_GRID: there is no such tile, or a place is not that of a point on the border, or is that of a corner. ROAM_SHRUNK: the
 * mesh that was put before had a border point that is not among these. */
int32_t roam_mosaic_put(roam_mosaic *m, uint32_t column, uint32_t row, const uint32_t *border, size_t count);

/* Worlds: one mesh over a terrain of pages. The terrain is a square of 2^large grid steps a side. A page is a grid of heights, 2^n + 1 a
 * side, one n for all; one of resolution q has heights 2^q grid steps apart and covers a square of side 2^(n + q). The coarsest page, of
 * resolution large - n, covers the whole terrain: a world opens with it and keeps it. Finer pages come and go. The rules for handles
 * are those of roam_handle.
 *
 * A page is made of heights on any thread, ahead of its use, since that is what costs time; in a world it is only put to its place. */
typedef struct roam_page {
    uint64_t mark;
    void *at;
} roam_page;

typedef struct roam_world {
    uint64_t mark;
    void *at;
} roam_world;

/* What a frame did, and what its mesh is. */
typedef struct roam_world_note {
    uint64_t worst;                /* the greatest priority of a triangle of the mesh */
    uint64_t evaluations;          /* how often a priority was evaluated in this frame */
    uint32_t triangles;
    uint32_t splits, merges;       /* triangles split and merged in this frame */
    uint32_t blocking;             /* the triangle of priority `worst` whose split does not fit the budget, or 0: all priorities are 0 */
    uint32_t need;                 /* how many triangles the mesh would have with it split, or 0 */
    uint32_t spare;                /* 0 */
} roam_world_note;

/* A run of triangles that are of one page: `triangles` from the triangle `first` on, three indices each. */
typedef struct roam_draw {
    uint32_t q, column, row;       /* the page's resolution, and the column and row of its square */
    uint32_t first, triangles;
} roam_draw;

/* Makes a page of `count` heights, rows from the far side as roam_open takes them. They are copied; all memory of a page is taken
 * here, about 3 bytes a height. ROAM_BAD_GRID, ROAM_NO_MEMORY. A full handle lets go of what it had, unless the call fails. */
int32_t roam_page_make(roam_page *p, const uint16_t *heights, size_t count);
int32_t roam_page_drop(roam_page *p);

/* As roam_set and roam_raise, in steps of the page's own grid. ROAM_IS_EMPTY: the handle has no page. Takes no memory. */
int32_t roam_page_set_height(roam_page *p, uint32_t x, uint32_t y, uint16_t height);
int32_t roam_page_raise(roam_page *p, uint32_t x0, uint32_t y0, uint32_t x1, uint32_t y1, int32_t dz);

/* Opens a world of a terrain of 2^large grid steps a side, of which the page covers the whole; the page goes out of its handle.
 * `budget` is the most triangles that a mesh may have, `spacing` the length of a grid step in units of height. ROAM_IS_EMPTY: the
 * handle has no page. ROAM_BAD_GRID: large is above 14, or the page has more grid steps than that. ROAM_BAD_BUDGET, ROAM_BAD_SPACING as
 * roam_open. All memory but that of pages is taken here. Where it runs out the page is lost, and its handle empty; after each other
 * refusal it is still there. A full handle lets go of its world, unless the call fails. */
int32_t roam_world_open(roam_world *w, roam_page *coarsest, uint32_t large, uint32_t budget, uint32_t spacing);

/* Lets go of the world and of its pages; the handle is empty then. */
int32_t roam_world_close(roam_world *w);

/* Puts a page into the square in this column and row of the resolution q, from 0 on, the first row on the near side; the page goes out of
 * its handle. ROAM_IS_EMPTY: the world's handle has no world, or the page's no page. ROAM_BAD_PAGE: the coarsest resolution is no finer
 * than q, or has no such square of it; a page is loaded there; the page has another side than the others; that of the next coarser
 * resolution which has this square is not loaded, or one that has a side in common with that; or the page has another height than
 * the pages that are loaded, at a point that is theirs too. Then it is still in its handle. Takes no memory. */
int32_t roam_world_load(roam_world *w, uint32_t q, uint32_t column, uint32_t row, roam_page *p);

/* Puts the page of a square into a handle, which lets go of what it had. ROAM_NOT_THERE: no page is loaded there. ROAM_BAD_PAGE: it is the
 * coarsest, or one of the next finer resolution is loaded in its square or in one that has a side in common with it. ROAM_NO_MEMORY, before
 * these two: there is none for what a full handle has, a block of fixed size. */
int32_t roam_world_unload(roam_world *w, uint32_t q, uint32_t column, uint32_t row, roam_page *p);

/* As roam_set and roam_raise, in grid steps of the terrain, in each loaded page that has such a point; (0, 0) is the near left point.
 * ROAM_NOT_THERE: no loaded page has one. A page that is loaded later has to agree, so change those too that are not loaded, by
 * roam_page_set_height and roam_page_raise, in the same order. Takes no memory. */
int32_t roam_world_set_height(roam_world *w, uint32_t x, uint32_t y, uint16_t height);
int32_t roam_world_raise(roam_world *w, uint32_t x0, uint32_t y0, uint32_t x1, uint32_t y1, int32_t dz);

/* As roam_camera, roam_look, roam_threshold and roam_budget; (0, 0) is the near left point of the terrain. A way has no end here.
 * Thickness, box and ratio are those over what is loaded, 0 for a triangle whose parts would have a height that is not: of these
 * `worst` 0 says that no mesh has fewer triangles, and what is said of points in a triangle holds at loaded ones. */
int32_t roam_world_camera(roam_world *w, int64_t x, int64_t y, int64_t z);
int32_t roam_world_look(roam_world *w, const roam_plane *planes, size_t count);
int32_t roam_world_threshold(roam_world *w, uint64_t ratio);
int32_t roam_world_budget(roam_world *w, uint32_t triangles);

/* Makes the mesh of what is loaded and seen: it has no cracks, is within the budget in force, and no other such mesh has a lower
 * `worst`, where a triangle whose parts would have a height that is not loaded has priority 0. Each of its vertices is a point of a
 * loaded page, and roam_world_draws has a page for each triangle until one is unloaded. Where all pages of resolution 0 are loaded,
 * it is the mesh of an engine over the same heights. ROAM_WORN: the world has split or merged 2^61 triangles. Takes no memory. */
int32_t roam_world_frame(roam_world *w, roam_world_note *out);

/* As roam_leaves: the addresses are those of a grid of 2^large grid steps a side. */
int32_t roam_world_leaves(roam_world *w, uint32_t *out, size_t places, size_t *triangles);

/* Writes what to draw: runs of triangles in the order of roam_world_leaves, each run of one page, the finest loaded one that its
 * triangles lie in; and three indices for each triangle as roam_indices writes them, but places among the heights of that page as
 * roam_page_make took them. So one vertex buffer for each page, filled when it is loaded, serves every frame. Neighbouring runs
 * are of different pages, and a page may have several. There is room for `places` runs and `room` indices. ROAM_NOT_THERE: a page
 * that the mesh needs was unloaded since the last frame, so make one. ROAM_NO_ROOM: *draws and *triangles are what is needed;
 * there are no more runs than triangles. Costs a step for each coarser page of a triangle, twice; takes no memory. */
int32_t roam_world_draws(roam_world *w, roam_draw *out, size_t places, size_t *draws, uint32_t *indices, size_t room,
                         size_t *triangles);

#ifdef __cplusplus
}
#endif
#endif
