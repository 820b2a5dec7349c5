#include <omp.h>
int x; omp_lock_t l, m;
int main(void){ omp_init_lock(&l); omp_init_lock(&m);
#pragma omp parallel
#pragma omp single
{
#pragma omp task
{ omp_set_lock(&l); x++; omp_unset_lock(&l); }
#pragma omp task
{ omp_set_lock(&m); x++; omp_unset_lock(&m); }
}
omp_destroy_lock(&l); omp_destroy_lock(&m);
return 0; }
