// A ring of jobs whose count is looked at without its lock.
#include <omp.h>
#include <stdbool.h>
#include <stdio.h>
typedef struct {
  int slots[8];
  int head, tail, count;
  omp_lock_t lock;
} ring;
static void put(ring *r, int job) {
  omp_set_lock(&r->lock);
  if (r->count < 8) {
    r->slots[r->tail] = job;
    r->tail = (r->tail + 1) % 8;
    r->count++;
  }
  omp_unset_lock(&r->lock);
}
static bool take(ring *r, int *job) {
  bool had = false;
  omp_set_lock(&r->lock);
  if (r->count > 0) {
    *job = r->slots[r->head];
    r->head = (r->head + 1) % 8;
    r->count--;
    had = true;
  }
  omp_unset_lock(&r->lock);
  return had;
}
int main(void) {
  ring r = {.head = 0, .tail = 0, .count = 0};
  int sum = 0;
  omp_init_lock(&r.lock);
#pragma omp parallel num_threads(4)
#pragma omp single
  {
    for (int i = 0; i < 2; ++i)
#pragma omp task firstprivate(i)
      put(&r, i * i);
#pragma omp taskwait
    for (int i = 0; i < 2; ++i)
#pragma omp task shared(r, sum)
    {
      int job = r.count;
      if (take(&r, &job)) {
#pragma omp atomic
        sum += job;
      }
    }
  }
  omp_destroy_lock(&r.lock);
  printf("%d\n", sum);
  return 0;
}
