int x;
int main(void){
#pragma omp parallel
#pragma omp single
{
#pragma omp task
{
#pragma omp atomic
x += 1;
}
#pragma omp task
{
#pragma omp critical
x += 1;
}
}
return 0; }
