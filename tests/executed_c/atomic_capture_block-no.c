int x, y[4];
int main(void){
#pragma omp parallel
#pragma omp single
for(int i=0;i<4;i++){
#pragma omp task
{ int u, v, w;
#pragma omp atomic capture
{ u = x; x += 3; }
#pragma omp atomic capture
{ x = x * 2; v = x; }
#pragma omp atomic capture
{ w = x; x = i; }
y[i] = u + v + w;
}
}
return 0; }
