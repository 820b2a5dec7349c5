/* what stands without the lock is excluded by nothing */
int c, d;
int main(void){
#pragma omp parallel
#pragma omp single
{
#pragma omp task depend(mutexinoutset: c)
{ c += 1; }
#pragma omp task depend(mutexinoutset: c)
{ c += 2; d = 1; }
#pragma omp task
d = 2;
}
return 0; }
