#include <omp.h>
int sums[8]; omp_lock_t locks[8];
int main(void){
for(int i=0;i<8;i++) omp_init_lock(&locks[i]);
#pragma omp parallel
#pragma omp single
for(int i=0;i<32;i++){
#pragma omp task
{ int k = i % 8;
omp_set_lock(&locks[k]);
sums[k / 2] += i;
omp_unset_lock(&locks[k]);
}
}
return 0; }
