int x, a[2], b;
int main(void){
#pragma omp parallel
#pragma omp single
{
#pragma omp task depend(inoutset: x)
a[0] = 1;
#pragma omp task depend(inoutset: x)
a[1] = 2;
#pragma omp taskwait depend(in: x)
b = a[0] + a[1];
}
return b; }
