/* the serial run executes the task where it is created, while the lock is held */
int x;
int main(void){
#pragma omp parallel
#pragma omp single
{
#pragma omp critical
{
#pragma omp task
{
#pragma omp critical
x++;
}
}
}
return 0; }
