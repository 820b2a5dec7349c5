/* a wait of the same kind awaits none of them */
int x, a, b;
int main(void){
#pragma omp parallel
#pragma omp single
{
#pragma omp task depend(inoutset: x)
a = 1;
#pragma omp taskwait depend(inoutset: x)
b = a;
}
return b; }
