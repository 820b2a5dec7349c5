/* a child holds none of its parent's locks */
int x;
int main(void){
#pragma omp parallel
#pragma omp single
{
#pragma omp critical
{
#pragma omp task
x++;
x++;
}
}
return 0; }
