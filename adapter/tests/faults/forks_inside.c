// A child that is forked inside of a parallel region meets a barrier there, which its parent's team is at: its status is told.
#include "../check.h"
#include <sys/wait.h>

static void meet(void) {
#pragma omp barrier
}

int main(void) {
    int status = 0;
#pragma omp parallel
    {
#pragma omp master
        {
            pid_t child = fork();
            if (child == 0) {
                meet();
                _exit(3);
            }
            CHECK(waitpid(child, &status, 0) == child && WIFEXITED(status), "%x", (unsigned)status);
        }
#pragma omp barrier
    }
    return told() ? 1 : WEXITSTATUS(status);
}
