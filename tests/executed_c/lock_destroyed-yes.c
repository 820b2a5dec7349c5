/* a task may still take the lock that is destroyed */
#include <omp.h>
int x; omp_lock_t l;
int main(void){ omp_init_lock(&l);
#pragma omp parallel
#pragma omp single
{
#pragma omp task
{ omp_set_lock(&l); x++; omp_unset_lock(&l); }
omp_destroy_lock(&l);
}
return 0; }
