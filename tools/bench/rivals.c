/* The work of the program `bench`, done by plain C loops and by FLINT, with the same checksums.
   Without an argument it prints checksums; with the argument `time`, nanoseconds for each operation.
   Built and run by tools/compare. */
#include <stdint.h>
#include <stdio.h>
#include <stdlib.h>
#include <string.h>
#include <time.h>
#include <flint/fmpz_mpoly.h>
#include <flint/nmod_mpoly.h>

typedef struct { uint64_t key; int64_t figure; } row;

enum { ROOM = 4096, TERMS = 60, ROWS = 2000 };
static const int64_t LIMIT = 134217727;

static double now(void) {
    struct timespec t;
    clock_gettime(CLOCK_MONOTONIC, &t);
    return t.tv_sec * 1e9 + t.tv_nsec;
}

/* ---- adding 2,000 rows to 2,000 */
static row left[ROOM], right[ROOM], work[ROOM], place[ROOM];

static int merge(const row *a, int m, const row *b, int n, row *out) {
    int i = 0, j = 0, k = 0;
    while (i < m || j < n) {
        row r;
        if (i >= m) r = b[j++];
        else if (j >= n) r = a[i++];
        else if (a[i].key > b[j].key) r = a[i++];
        else if (b[j].key > a[i].key) r = b[j++];
        else {
            int64_t s = a[i].figure + b[j].figure;
            if (s < -LIMIT || s > LIMIT) return -10;
            r.key = a[i].key;
            r.figure = s;
            i++;
            j++;
            if (s == 0) continue;
        }
        if (k < ROOM) out[k] = r;
        k++;
    }
    return k > ROOM ? -12 : k;
}

/* what a sheet does besides: the result is moved to its place, what was there before is blanked, and so is the working area */
static int add(int old) {
    int k = merge(left, ROWS, right, ROWS, work);
    memcpy(place, work, k * sizeof(row));
    for (int i = k; i < old; i++) place[i] = (row){0, 0};
    for (int i = 0; i < k; i++) work[i] = (row){0, 0};
    return k;
}

static uint64_t sum_rows(const row *r, int n) {
    uint64_t s = 0;
    for (int i = 0; i < n; i++) s = s * 31 + r[i].key * 7 + (uint64_t)r[i].figure;
    return s;
}

static void fill(void) {
    for (int i = 0; i < ROWS; i++) {
        left[i] = (row){2 * (uint64_t)(ROWS - 1 - i), i + 1};
        right[i] = (row){3 * (uint64_t)(ROWS - 1 - i), i % 2 ? i : -i - 1};
    }
}

/* ---- the random numbers that both programs draw */
static uint32_t seed;
static uint32_t draw(void) {
    seed = seed * 1664525u + 1013904223u;
    return seed >> 16;
}

static void sparse(fmpz_mpoly_t p, const fmpz_mpoly_ctx_t c, uint32_t from) {
    seed = from;
    fmpz_mpoly_zero(p, c);
    for (int i = 0; i < TERMS; i++) {
        ulong e[3];
        e[0] = draw() % 6;
        e[1] = draw() % 1000;
        e[2] = draw() % 1000;
        fmpz_mpoly_t t;
        fmpz_mpoly_init(t, c);
        fmpz_mpoly_set_si(t, 1 + draw() % 100, c);
        fmpz_mpoly_t x;
        fmpz_mpoly_init(x, c);
        fmpz_mpoly_set_coeff_ui_ui(x, 1, e, c);
        fmpz_mpoly_mul(t, t, x, c);
        fmpz_mpoly_add(p, p, t, c);
        fmpz_mpoly_clear(t, c);
        fmpz_mpoly_clear(x, c);
    }
}

static uint64_t sum_fmpz(const fmpz_mpoly_t p, const fmpz_mpoly_ctx_t c) {
    uint64_t s = 0;
    fmpz_t f;
    fmpz_init(f);
    for (slong i = 0; i < fmpz_mpoly_length(p, c); i++) {
        ulong e[3];
        fmpz_mpoly_get_term_exp_ui(e, p, i, c);
        fmpz_mpoly_get_term_coeff_fmpz(f, p, i, c);
        s = s * 31 + ((e[0] << 32) + (e[1] << 16) + e[2]) * 7 + (uint64_t)fmpz_get_si(f);
    }
    fmpz_clear(f);
    return s;
}

static uint64_t sum_nmod(const nmod_mpoly_t p, const nmod_mpoly_ctx_t c) {
    uint64_t s = 0;
    for (slong i = 0; i < nmod_mpoly_length(p, c); i++) {
        ulong e[3];
        nmod_mpoly_get_term_exp_ui(e, p, i, c);
        s = s * 31 + ((e[0] << 16) + (e[1] << 8) + e[2]) * 7 + nmod_mpoly_get_term_coeff_ui(p, i, c);
    }
    return s;
}

static int timing;
static void report(const char *name, double start, int times, int rows, uint64_t sum) {
    if (timing) printf("%s %.0f\n", name, (now() - start) / times);
    else printf("%s %d %llu\n", name, rows, (unsigned long long)sum);
}

int main(int argc, char **argv) {
    timing = argc > 1 && strcmp(argv[1], "time") == 0;
    int many = timing ? 1000 : 1, some = timing ? 20 : 1;

    fill();
    int k = 0;
    double t = now();
    for (int i = 0; i < many; i++) k = add(k);
    report("add", t, many, k, sum_rows(place, k));
    if (timing) {
        t = now();
        for (int i = 0; i < many; i++) { k = merge(left, ROWS, right, ROWS, work); __asm__ volatile("" ::"r"(work) : "memory"); }
        report("merge", t, many, k, 0);
    }

    nmod_mpoly_ctx_t nc;
    nmod_mpoly_ctx_init(nc, 3, ORD_LEX, 257);
    nmod_mpoly_t base, tenth, square;
    nmod_mpoly_init(base, nc);
    nmod_mpoly_init(tenth, nc);
    nmod_mpoly_init(square, nc);
    const char *names[] = {"X", "Y", "Z"};
    nmod_mpoly_set_str_pretty(base, "1+X+Y+Z", names, nc);
    nmod_mpoly_pow_ui(tenth, base, 10, nc);
    t = now();
    for (int i = 0; i < some; i++) nmod_mpoly_mul(square, tenth, tenth, nc);
    report("square", t, some, nmod_mpoly_length(square, nc), sum_nmod(square, nc));

    fmpz_mpoly_ctx_t c;
    fmpz_mpoly_ctx_init(c, 3, ORD_LEX);
    fmpz_mpoly_t p, q, r, d, u;
    fmpz_mpoly_init(p, c);
    fmpz_mpoly_init(q, c);
    fmpz_mpoly_init(r, c);
    fmpz_mpoly_init(d, c);
    fmpz_mpoly_init(u, c);
    sparse(p, c, 1);
    sparse(q, c, 2);
    t = now();
    for (int i = 0; i < some; i++) fmpz_mpoly_mul(r, p, q, c);
    report("product", t, some, fmpz_mpoly_length(r, c), sum_fmpz(r, c));
    t = now();
    for (int i = 0; i < some; i++) fmpz_mpoly_derivative(d, r, 1, c);
    report("derivative", t, some, fmpz_mpoly_length(d, c), sum_fmpz(d, c));

    /* Y + 2 for X in the first factor */
    fmpz_mpoly_t y, x1, x2;
    fmpz_mpoly_init(y, c);
    fmpz_mpoly_init(x1, c);
    fmpz_mpoly_init(x2, c);
    fmpz_mpoly_gen(x1, 1, c);
    fmpz_mpoly_gen(x2, 2, c);
    fmpz_mpoly_set_str_pretty(y, "Y+2", names, c);
    fmpz_mpoly_struct *to[3] = {y, x1, x2};
    t = now();
    for (int i = 0; i < some; i++) fmpz_mpoly_compose_fmpz_mpoly(u, p, to, c, c);
    report("substitution", t, some, fmpz_mpoly_length(u, c), sum_fmpz(u, c));
    return 0;
}
