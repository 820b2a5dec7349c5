/* each task may be told any number: the tasks' elements may be one, as far as is known */
int next, a[4], b[4];
int main(void){
#pragma omp parallel
#pragma omp single
for(int i=0;i<2;i++){
#pragma omp task
{ int k;
#pragma omp atomic read
k = next;
a[k] = i;
#pragma omp atomic
next += 1;
}
}
return 0; }
