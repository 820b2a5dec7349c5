/* the label is converted to the type of the value */
int x;
int main(void){
unsigned u = 4294967295u;
#pragma omp parallel
#pragma omp single
{
#pragma omp task
x = 1;
switch (u) {
case -1: x = 2; break;
default: break;
}
}
return 0; }
