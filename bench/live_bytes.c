// Counts the live bytes of blocks of at most 70,000 bytes, which leaves out the text of a run, and prints the greatest count and
// the number of calls as the program ends. For bench/memory.sh: LD_PRELOAD=live_bytes.so PROGRAM.
#define _GNU_SOURCE
#include <dlfcn.h>
#include <malloc.h>
#include <stdio.h>
#include <stdlib.h>

#define SMALL 70000

static size_t live, most, calls;

static void *(*real_malloc)(size_t);
static void *(*real_realloc)(void *, size_t);
static void (*real_free)(void *);

static void find_real(void) {
    if (real_malloc == NULL) {
        real_malloc = dlsym(RTLD_NEXT, "malloc");
        real_realloc = dlsym(RTLD_NEXT, "realloc");
        real_free = dlsym(RTLD_NEXT, "free");
    }
}

static void count_in(void *block) {
    size_t size = malloc_usable_size(block);
    if (size <= SMALL) {
        live += size;
    }
    if (live > most) {
        most = live;
    }
}

static void count_out(void *block) {
    size_t size = malloc_usable_size(block);
    if (size <= SMALL) {
        live -= size;
    }
}

void *malloc(size_t size) {
    find_real();
    calls++;
    void *block = real_malloc(size);
    if (block != NULL) {
        count_in(block);
    }
    return block;
}

void free(void *block) {
    find_real();
    if (block != NULL) {
        count_out(block);
    }
    real_free(block);
}

void *realloc(void *block, size_t size) {
    find_real();
    calls++;
    if (block != NULL) {
        count_out(block);
    }
    void *moved = real_realloc(block, size);
    if (moved != NULL) {
        count_in(moved);
    } else if (block != NULL) {
        count_in(block);
    }
    return moved;
}

__attribute__((destructor)) static void tell(void) {
    fprintf(stderr, "%zu %zu\n", most, calls);
}
