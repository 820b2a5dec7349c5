/* in the serial run the first task sees no flag */
int flag, x;
int main(void){
#pragma omp parallel
#pragma omp single
{
#pragma omp task
{ int seen;
#pragma omp critical
seen = flag;
if (seen) x = 1;
}
#pragma omp task
{ x = 2;
#pragma omp critical
flag = 1;
}
}
return 0; }
