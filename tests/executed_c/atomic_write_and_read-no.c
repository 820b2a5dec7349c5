int x, y[2];
int main(void){
#pragma omp parallel
#pragma omp single
{
#pragma omp task
{
#pragma omp atomic write
x = 7;
}
#pragma omp task
{
#pragma omp atomic read
y[0] = x;
}
#pragma omp task
{ int v;
#pragma omp atomic read acquire
v = x;
y[1] = v;
}
}
return 0; }
