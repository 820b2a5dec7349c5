#include <stdlib.h>
int *p;
int main(void){
p = malloc(sizeof(int));
#pragma omp parallel
#pragma omp single
{
#pragma omp task
{
#pragma omp critical
*p = 1;
}
#pragma omp critical
free(p);
}
return 0; }
