int x, a[3]; double d; char c;
int main(void){
#pragma omp parallel
#pragma omp single
for(int i=0;i<4;i++){
#pragma omp task
{
#pragma omp atomic
x++;
#pragma omp atomic update seq_cst
x += 2*i;
#pragma omp atomic
x = x - i;
#pragma omp atomic
d = 0.5 * d;
#pragma omp atomic hint(0)
a[i%3] |= 1;
#pragma omp atomic
--c;
}
}
return x; }
