int c, a[2], b[2];
int main(void){
#pragma omp parallel
#pragma omp single
{
#pragma omp task depend(out: c)
c = 1;
for(int i=0;i<2;i++){
#pragma omp task depend(mutexinoutset: c)
c += i;
}
for(int i=0;i<2;i++){
#pragma omp task depend(inoutset: c)
a[i] = c;
}
for(int i=0;i<2;i++){
#pragma omp task depend(mutexinoutset: c)
{ c += a[0] + a[1]; }
}
#pragma omp task depend(in: c)
b[0] = c;
#pragma omp task depend(in: c)
b[1] = c;
}
return 0; }
