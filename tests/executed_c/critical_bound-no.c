/* what no task changes under a lock is known there */
int n = 4, sums[4];
int main(void){
#pragma omp parallel
#pragma omp single
for(int t=0;t<3;t++){
#pragma omp task
{
#pragma omp critical(all)
for(int i=0;i<n;i++) sums[i] += t;
}
}
return sums[0]; }
