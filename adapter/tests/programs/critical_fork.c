// A child that the program forks between regions has teams and names of its own.
// threads: 1 4
// steps: critical family, critical
// record: no
#include "../check.h"
#include <sys/wait.h>

static int count, family;

static void add(void) {
#pragma omp parallel
    {
#pragma omp critical(family)
        family++;
#pragma omp critical
        count++;
    }
}

int main(void) {
    int status = -1;
    add();
    pid_t child = fork();
    if (child == 0) {
        omp_lock_t lock;
        omp_init_lock(&lock);
        omp_set_lock(&lock);
        omp_unset_lock(&lock);
        add();
        exit(count == 2 * asked() && family == count ? 3 : 4);
    }
    add();
    CHECK(waitpid(child, &status, 0) == child && WIFEXITED(status) && WEXITSTATUS(status) == 3, "%x", (unsigned)status);
    CHECK(count == 2 * asked() && family == count, "%d, %d", count, family);
    return told();
}
