/* what is added is no atomic touch */
int x, y;
int main(void){
#pragma omp parallel
#pragma omp single
{
#pragma omp task
{
#pragma omp atomic
x += y;
}
#pragma omp task
{
#pragma omp atomic
y += 1;
}
}
return 0; }
