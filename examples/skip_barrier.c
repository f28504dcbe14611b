// E35 Mismatch: a member skips a barrier, and the region's end shows it.
#include <omp.h>
static void work(int member) {
  if (member == 0)
    return;
  #pragma omp barrier
}
int main(void) {
  #pragma omp parallel
  work(omp_get_thread_num());
}
