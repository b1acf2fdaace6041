/* A test tool, preloaded before a program: the request for memory whose number REFUSE gives is refused, and where COUNT
   names a file the number of requests is written there at the end. A block that is to become smaller stays as it is, each
   time: that is no request, and has to make no difference. Nothing of the product is linked to it. */
#define _GNU_SOURCE
#include <dlfcn.h>
#include <stdio.h>
#include <stdlib.h>

/* What was asked for, by the place that was given. A place that is freed keeps its row until it is given again. */
#define ROWS (1 << 20)
static struct {
    void *place;
    size_t size;
} rows[ROWS];

static long requests;
static long refused = -1;

static size_t *size_at(void *place) {
    size_t row = ((size_t)place >> 4) % ROWS;
    while (rows[row].place && rows[row].place != place) row = (row + 1) % ROWS;
    rows[row].place = place;
    return &rows[row].size;
}

static void *noted(void *place, size_t size) {
    if (place) *size_at(place) = size;
    return place;
}

static int is_refused(void) {
    if (refused < 0) {
        const char *number = getenv("REFUSE");
        refused = number ? atol(number) : 0;
    }
    return ++requests == refused;
}

void *malloc(size_t size) {
    static void *(*real)(size_t);
    if (!real) real = dlsym(RTLD_NEXT, "malloc");
    return is_refused() ? NULL : noted(real(size), size);
}

void *realloc(void *place, size_t size) {
    static void *(*real)(void *, size_t);
    if (!real) real = dlsym(RTLD_NEXT, "realloc");
    if (place && size < *size_at(place)) return NULL;
    return is_refused() ? NULL : noted(real(place, size), size);
}

__attribute__((destructor)) static void tell(void) {
    const char *path = getenv("COUNT");
    if (!path) return;
    long count = requests;
    FILE *file = fopen(path, "w");
    if (file) {
        fprintf(file, "%ld\n", count);
        fclose(file);
    }
}
