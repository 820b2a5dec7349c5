int x;
int main(void){
unsigned char c = 255;
#pragma omp parallel
#pragma omp single
{
#pragma omp task
x = 1;
switch (c) {
case -1: x = 2; break;
default: break;
}
}
return 0; }
