/*
 * What the program is set beside: the same steps of a cell variable and of a face variable, and the same curl, on flat arrays
 * of level 0 with periodic sides, and a plain copy of the arrays of blocks. bench/measure compiles it with `cc -O3`.
 *
 *     flat advect X Y Z NX NY NZ STEPS       steps the cells of a box of X x Y x Z, and prints their total
 *     flat print X Y Z NX NY NZ STEPS        the same, and prints the rows of cells, first y and then z rising
 *     flat induct X Y Z NX NY NZ STEPS       steps the faces of such a box, and prints the total of those normal to x
 *     flat faces X Y Z NX NY NZ STEPS        the same, and prints the rows of faces normal to x, then y, then z
 *     flat curl X Y Z TIMES                  sets the faces from the edges so often, and prints the same total
 *     flat copy ARRAYS PLACES TIMES          copies so many arrays of so many numbers into as many others
 *     flat renew ARRAYS PLACES TIMES         copies them into new arrays, and gives the old ones back
 *
 * At the start the cells below 4 on each axis hold 1000000, those from there to below 6 hold -777777, all others 0. The edges
 * at the places below 2 on each axis hold 1000000 times 1 along x, 2 along y and 3 along z, less 300000 times x + 2 y + 4 z,
 * all others 0, and the faces hold their curl.
 */
#include <inttypes.h>
#include <stdio.h>
#include <stdlib.h>
#include <string.h>

typedef int64_t number;

/* No content is above it in absolute value. */
static const number RANGE = (number)1 << 40;

static void fail(const char *words)
{
    fprintf(stderr, "flat: %s\n", words);
    exit(1);
}

static void *room(size_t bytes)
{
    void *found = malloc(bytes);
    if (!found) fail("out of memory");
    return found;
}

struct box {
    size_t extent[3];
    size_t cells;
};

/* What a speed carries of a content: so many parts of 2^20, rounded down, as the shift does of a negative number too. */
static inline number carry(number speed, number content)
{
    number part = (llabs(speed) * content) >> 20;
    return speed < 0 ? -part : part;
}

/*
 * The fluxes through the low faces of all cells across one axis, on which neighbours stand `stride` apart in lines of
 * `line` cells. The donor is the cell on the low side for a speed that is not negative, and else the cell itself.
 */
static void fluxes(const number *u, number *f, size_t cells, size_t stride, size_t line, number speed)
{
    for (size_t start = 0; start < cells; start += line) {
        const number *donor = u + start;
        number *out = f + start;
        if (speed < 0) {
            for (size_t s = 0; s < line; s++) out[s] = carry(speed, donor[s]);
        } else {
            for (size_t s = 0; s < stride; s++) out[s] = carry(speed, donor[s + line - stride]);
            for (size_t s = stride; s < line; s++) out[s] = carry(speed, donor[s - stride]);
        }
    }
}

/* What is left of a cell whose neighbours above it are the cells x, y and z. */
static inline number left(const number *u, number *const f[3], size_t at, size_t x, size_t y, size_t z)
{
    return u[at] - (f[0][x] - f[0][at]) - (f[1][y] - f[1][at]) - (f[2][z] - f[2][at]);
}

/* Whether a content is above the range: 1 or 0. */
static inline int is_above(number content)
{
    return content > RANGE || content < -RANGE;
}

/* The contents after a step from the fluxes through low faces, and how many of them are above the range. */
static int update(struct box b, const number *u, number *const f[3], number *next)
{
    size_t X = b.extent[0], Y = b.extent[1], Z = b.extent[2];
    int above = 0;
    for (size_t z = 0; z < Z; z++) {
        for (size_t y = 0; y < Y; y++) {
            size_t row = X * (y + Y * z);
            size_t over = X * ((y + 1) % Y + Y * z);
            size_t behind = X * (y + Y * ((z + 1) % Z));
            size_t last = X - 1;
            for (size_t x = 0; x < last; x++) {
                next[row + x] = left(u, f, row + x, row + x + 1, over + x, behind + x);
                above += is_above(next[row + x]);
            }
            next[row + last] = left(u, f, row + last, row, over + last, behind + last);
            above += is_above(next[row + last]);
        }
    }
    return above;
}

/* Makes a step from u into next. */
static void step(struct box b, const number *u, number *const f[3], number *next, const number speeds[3])
{
    size_t stride = 1;
    for (int axis = 0; axis < 3; axis++) {
        size_t line = stride * b.extent[axis];
        fluxes(u, f[axis], b.cells, stride, line, speeds[axis]);
        stride = line;
    }
    if (update(b, u, f, next)) fail("range");
}

static number start_content(size_t x, size_t y, size_t z)
{
    if (x < 4 && y < 4 && z < 4) return 1000000;
    return x >= 4 && x < 6 && y >= 4 && y < 6 && z >= 4 && z < 6 ? -777777 : 0;
}

static void show(struct box b, const number *u)
{
    for (size_t i = 0; i < b.cells; i++) printf("%" PRId64 "%c", u[i], (i + 1) % b.extent[0] ? ' ' : '\n');
}

static void print_total(struct box b, const number *u)
{
    number total = 0;
    for (size_t i = 0; i < b.cells; i++) total += u[i];
    printf("total %" PRId64 "\n", total);
}

static void advect(struct box b, const number speeds[3], size_t steps, int is_shown)
{
    size_t bytes = b.cells * sizeof(number);
    number *f[3] = {room(bytes), room(bytes), room(bytes)};
    number *u = room(bytes), *next = room(bytes);
    for (size_t i = 0; i < b.cells; i++) {
        size_t across = i / b.extent[0];
        u[i] = start_content(i % b.extent[0], across % b.extent[1], across / b.extent[1]);
    }
    for (int axis = 0; axis < 3; axis++) memset(f[axis], 0, bytes);
    memset(next, 0, bytes);
    for (size_t s = 0; s < steps; s++) {
        step(b, u, f, next, speeds);
        number *old = u;
        u = next;
        next = old;
    }
    if (is_shown) show(b, u);
    print_total(b, u);
}

/* A number for the low side of each cell across each axis: for its faces, or for the edges along each axis at its low corner. */
struct sides {
    number *on[3];
};

static struct sides room_for_sides(struct box b)
{
    struct sides s;
    for (int axis = 0; axis < 3; axis++) memset(s.on[axis] = room(b.cells * sizeof(number)), 0, b.cells * sizeof(number));
    return s;
}

/* Where a row of cells along x begins, and the rows after it and before it on y and on z. */
struct rows {
    size_t here, after[3], before[3];
};

static struct rows rows_at(struct box b, size_t y, size_t z)
{
    size_t X = b.extent[0], Y = b.extent[1], Z = b.extent[2], here = X * (y + Y * z);
    return (struct rows){
        here,
        {here, X * ((y + 1) % Y + Y * z), X * (y + Y * ((z + 1) % Z))},
        {here, X * ((y + Y - 1) % Y + Y * z), X * (y + Y * ((z + Z - 1) % Z))},
    };
}

/*
 * The electromotive forces of a row of edges, b and c being the axes after their own: what the speed on c carries of the faces
 * normal to b, less what the speed on b carries of the faces normal to c. The faces may stand one cell back in their rows.
 */
static void force_row(size_t X, number *e, const number *on_b, size_t back_b, number by_c, const number *on_c, size_t back_c,
                      number by_b)
{
    e[0] = carry(by_c, on_b[back_b * (X - 1)]) - carry(by_b, on_c[back_c * (X - 1)]);
    for (size_t x = 1; x < X; x++) e[x] = carry(by_c, on_b[x - back_b]) - carry(by_b, on_c[x - back_c]);
}

/* The faces of a step are those upstream of an edge: on the low side for a positive speed, and else on the high side. */
static void forces(struct box b, struct sides faces, struct sides e, const number speeds[3])
{
    for (size_t z = 0; z < b.extent[2]; z++) {
        for (size_t y = 0; y < b.extent[1]; y++) {
            struct rows rows = rows_at(b, y, z);
            for (int axis = 0; axis < 3; axis++) {
                int first = (axis + 1) % 3, second = (axis + 2) % 3;
                const number *on_first = faces.on[first] + (speeds[second] > 0 ? rows.before[second] : rows.here);
                const number *on_second = faces.on[second] + (speeds[first] > 0 ? rows.before[first] : rows.here);
                force_row(b.extent[0], e.on[axis] + rows.here, on_first, second == 0 && speeds[0] > 0, speeds[second],
                          on_second, first == 0 && speeds[0] > 0, speeds[first]);
            }
        }
    }
}

/*
 * The circulations of a row of faces, b and c being the axes after their own: the edges along b low on c, those along c high
 * on b, less those along b high on c, less those along c low on b. The high ones may stand one cell ahead in their rows.
 */
static void circulation_row(size_t X, number *f, const number *b_low, const number *c_high, size_t ahead_c, const number *b_high,
                            size_t ahead_b, const number *c_low)
{
    size_t last = X - 1;
    for (size_t x = 0; x < last; x++) f[x] = b_low[x] + c_high[x + ahead_c] - b_high[x + ahead_b] - c_low[x];
    f[last] = b_low[last] + c_high[ahead_c ? 0 : last] - b_high[ahead_b ? 0 : last] - c_low[last];
}

/* What the faces of a row are after a step, from their circulations; and how many of them are above the range. */
static int lose_row(size_t X, const number *old, number *f)
{
    int above = 0;
    for (size_t x = 0; x < X; x++) {
        f[x] = old[x] - f[x];
        above += is_above(f[x]);
    }
    return above;
}

static int count_above(size_t X, const number *f)
{
    int above = 0;
    for (size_t x = 0; x < X; x++) above += is_above(f[x]);
    return above;
}

/* The faces that lose the circulations of edges, or where there are no old faces, these circulations. */
static void circulate(struct box b, const struct sides *old, struct sides e, struct sides next)
{
    size_t X = b.extent[0];
    int above = 0;
    for (size_t z = 0; z < b.extent[2]; z++) {
        for (size_t y = 0; y < b.extent[1]; y++) {
            struct rows rows = rows_at(b, y, z);
            for (int axis = 0; axis < 3; axis++) {
                int first = (axis + 1) % 3, second = (axis + 2) % 3;
                number *f = next.on[axis] + rows.here;
                circulation_row(X, f, e.on[first] + rows.here, e.on[second] + rows.after[first], first == 0,
                                e.on[first] + rows.after[second], second == 0, e.on[second] + rows.here);
                above += old ? lose_row(X, old->on[axis] + rows.here, f) : count_above(X, f);
            }
        }
    }
    if (above) fail("range");
}

static struct sides start_edges(struct box b)
{
    struct sides e = room_for_sides(b);
    for (int axis = 0; axis < 3; axis++)
        for (size_t z = 0; z < 2; z++)
            for (size_t y = 0; y < 2; y++)
                for (size_t x = 0; x < 2; x++)
                    e.on[axis][x + b.extent[0] * (y + b.extent[1] * z)] =
                        1000000 * (number)(axis + 1) - 300000 * (number)(x + 2 * y + 4 * z);
    return e;
}

static void induct(struct box b, const number speeds[3], size_t steps, int is_shown)
{
    struct sides e = start_edges(b), faces = room_for_sides(b), next = room_for_sides(b);
    circulate(b, NULL, e, faces);
    for (size_t s = 0; s < steps; s++) {
        forces(b, faces, e, speeds);
        circulate(b, &faces, e, next);
        struct sides old = faces;
        faces = next;
        next = old;
    }
    for (int axis = 0; is_shown && axis < 3; axis++) show(b, faces.on[axis]);
    print_total(b, faces.on[0]);
}

static void curl(struct box b, size_t times)
{
    struct sides e = start_edges(b), faces = room_for_sides(b);
    for (size_t t = 0; t < times; t++) circulate(b, NULL, e, faces);
    print_total(b, faces.on[0]);
}

static number **arrays_of(size_t arrays, size_t bytes)
{
    number **all = room(arrays * sizeof(number *));
    for (size_t i = 0; i < arrays; i++) memset(all[i] = room(bytes), 1, bytes);
    return all;
}

static void copy(size_t arrays, size_t bytes, size_t times)
{
    number **from = arrays_of(arrays, bytes), **to = arrays_of(arrays, bytes);
    for (size_t t = 0; t < times; t++) {
        for (size_t i = 0; i < arrays; i++) memcpy(to[i], from[i], bytes);
        number **old = from;
        from = to;
        to = old;
    }
}

static void renew(size_t arrays, size_t bytes, size_t times)
{
    number **from = arrays_of(arrays, bytes), **to = room(arrays * sizeof(number *));
    for (size_t t = 0; t < times; t++) {
        for (size_t i = 0; i < arrays; i++) memcpy(to[i] = room(bytes), from[i], bytes);
        for (size_t i = 0; i < arrays; i++) free(from[i]);
        number **old = from;
        from = to;
        to = old;
    }
}

int main(int count, char **words)
{
    const char *what = count > 1 ? words[1] : "";
    number n[7] = {0};
    for (int i = 2; i < count && i < 9; i++) n[i - 2] = strtoll(words[i], NULL, 10);
    struct box b = {{n[0], n[1], n[2]}, n[0] * n[1] * n[2]};
    if (count == 5 && !strcmp(what, "copy")) {
        copy(n[0], n[1] * sizeof(number), n[2]);
    } else if (count == 5 && !strcmp(what, "renew")) {
        renew(n[0], n[1] * sizeof(number), n[2]);
    } else if (count == 6 && !strcmp(what, "curl")) {
        curl(b, n[3]);
    } else if (count == 9 && (!strcmp(what, "advect") || !strcmp(what, "print"))) {
        advect(b, n + 3, n[6], !strcmp(what, "print"));
    } else if (count == 9 && (!strcmp(what, "induct") || !strcmp(what, "faces"))) {
        induct(b, n + 3, n[6], !strcmp(what, "faces"));
    } else {
        fail("advect|print|induct|faces X Y Z NX NY NZ STEPS, curl X Y Z TIMES, or copy|renew ARRAYS PLACES TIMES");
    }
    return 0;
}
