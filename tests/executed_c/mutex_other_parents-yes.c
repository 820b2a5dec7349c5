/* only siblings exclude each other */
int c;
int main(void){
#pragma omp parallel
#pragma omp single
for(int i=0;i<2;i++){
#pragma omp task
{
#pragma omp task depend(mutexinoutset: c)
c += 1;
#pragma omp taskwait
}
}
return 0; }
