struct flags { unsigned a : 3; unsigned b : 5; } f;
int main(void){
#pragma omp parallel
#pragma omp single
{
#pragma omp task
f.a = 1;
#pragma omp task
f.b = 1;
}
return 0; }
