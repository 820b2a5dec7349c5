#include <omp.h>
#include <stdlib.h>
int *sums; omp_lock_t *locks;
int main(void){
sums = calloc(8, sizeof(int)); locks = malloc(8 * sizeof(omp_lock_t));
for(int i=0;i<8;i++) omp_init_lock(&locks[i]);
#pragma omp parallel
#pragma omp single
for(int i=0;i<32;i++){
#pragma omp task
{ int k = i % 8;
omp_set_lock(&locks[k]);
sums[k] += i;
omp_unset_lock(&locks[k]);
}
}
for(int i=0;i<8;i++) omp_destroy_lock(&locks[i]);
free(locks); free(sums);
return 0; }
