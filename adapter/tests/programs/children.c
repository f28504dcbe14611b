// A program that starts other programs, before, between and in regions, and one that forks before its first region.
// threads: 1 4
// steps: region_end, loop dynamic 1
// record: no
#include "../check.h"
#include <sys/wait.h>

static int regions(void) {
    int done[20] = {0};
#pragma omp parallel
    {
#pragma omp for schedule(dynamic)
        for (int i = 0; i < 20; i++)
            COUNT(done[i]);
    }
    check_each(done, 20, 1, "iteration");
    return told();
}

static int status_of(int status) {
    return WIFEXITED(status) ? WEXITSTATUS(status) : -1;
}

int main(void) {
    pid_t child = fork();
    if (child == 0)
        exit(regions());
    int status = -1;
    regions();
    CHECK(waitpid(child, &status, 0) == child && status_of(status) == 0, "the child's status is %x", (unsigned)status);
    status = system("exit 3");
    CHECK(status_of(status) == 3, "the shell's status is %x", (unsigned)status);
    regions();
#pragma omp parallel
    {
#pragma omp single
        {
            FILE *pipe = popen("echo 42", "r");
            int number = 0;
            CHECK(pipe && fscanf(pipe, "%d", &number) == 1 && number == 42, "%d", number);
            if (pipe)
                pclose(pipe);
        }
    }
    regions();
    return told();
}
