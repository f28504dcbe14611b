// What omp_get_schedule answers by OMP_SCHEDULE, and after omp_set_schedule: the kind and the chunk that libgomp 12 answers. With
// auto a set leaves the chunk as it was. A loop with auto has none, whatever is answered; libgomp cuts it by that chunk.
// threads: 1 4
// environment: OMP_DYNAMIC=false
// environment: OMP_SCHEDULE=auto
// environment: OMP_SCHEDULE=auto,4
// environment: OMP_SCHEDULE=monotonic:auto,7
// environment: OMP_SCHEDULE=static
// environment: OMP_SCHEDULE=static,4
// environment: OMP_SCHEDULE=nonmonotonic:static,4
// environment: OMP_SCHEDULE=dynamic
// environment: OMP_SCHEDULE=dynamic,4
// environment: OMP_SCHEDULE=guided
// environment: OMP_SCHEDULE=guided,4
// steps: loop, end_nowait, region_end
#include "../check.h"

#define ITERATIONS 64
#define MONOTONIC 0x80000000u

static const struct {
    const char *value;
    unsigned kind;
    int chunk;
} by_value[] = {
    {"", omp_sched_dynamic, 1},
    {"auto", omp_sched_auto, 1},
    {"auto,4", omp_sched_auto, 4},
    {"monotonic:auto,7", omp_sched_auto | MONOTONIC, 7},
    {"static", omp_sched_static | MONOTONIC, 0},
    {"static,4", omp_sched_static | MONOTONIC, 4},
    {"nonmonotonic:static,4", omp_sched_static, 4},
    {"dynamic", omp_sched_dynamic, 1},
    {"dynamic,4", omp_sched_dynamic, 4},
    {"guided", omp_sched_guided, 1},
    {"guided,4", omp_sched_guided, 4},
};
static const int chunks[] = {0, -1, 4}, of_static[] = {0, 0, 4}, of_others[] = {1, 1, 4};

static void check(const char *after, unsigned kind, int chunk) {
    omp_sched_t own;
    int own_chunk;
    omp_get_schedule(&own, &own_chunk);
    CHECK((unsigned)own == kind && own_chunk == chunk, "%s: %x with %d, not %x with %d", after, (unsigned)own, own_chunk, kind, chunk);
}

// A loop with auto is cut as a static one without a chunk.
static void check_loop_of_auto(void) {
    int owner[ITERATIONS], members = asked();
#pragma omp parallel
    {
#pragma omp for schedule(runtime)
        for (int i = 0; i < ITERATIONS; i++)
            owner[i] = omp_get_thread_num();
    }
    for (int i = 0; i < ITERATIONS; i++)
        CHECK(owner[i] == i * members / ITERATIONS, "iteration %d is member %d's", i, owner[i]);
}

static void check_environment(void) {
    const char *value = getenv("OMP_SCHEDULE");
    for (size_t k = 0; k < sizeof by_value / sizeof *by_value; k++)
        if (strcmp(value != NULL ? value : "", by_value[k].value) == 0) {
            check("at first", by_value[k].kind, by_value[k].chunk);
            if ((by_value[k].kind & ~MONOTONIC) == omp_sched_auto)
                check_loop_of_auto();
            omp_set_schedule(omp_sched_auto, 9);
            check("auto", omp_sched_auto, by_value[k].chunk);
            check_loop_of_auto();
            return;
        }
    CHECK(false, "there is no row for %s", value);
}

static void check_set(omp_sched_t kind, const int *kept) {
    for (int k = 0; k < 3; k++) {
        omp_set_schedule(kind, chunks[k]);
        check("set", (unsigned)kind, kept[k]);
        for (int j = 0; j < 3; j++) {
            omp_set_schedule(omp_sched_auto, chunks[j]);
            check("auto behind it", omp_sched_auto, kept[k]);
        }
        check_loop_of_auto();
#pragma omp parallel
        check("in a region", omp_sched_auto, kept[k]);
    }
}

int main(void) {
    check_environment();
    check_set(omp_sched_static, of_static);
    check_set(omp_sched_static | omp_sched_monotonic, of_static);
    check_set(omp_sched_dynamic, of_others);
    check_set(omp_sched_guided, of_others);
    omp_set_schedule(omp_sched_auto | omp_sched_monotonic, 3);
    check("auto", omp_sched_auto | MONOTONIC, 4);
    return told();
}
