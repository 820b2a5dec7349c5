union word { int whole; char bytes[4]; };
union word w;
int main(void) {
  int *p = &w.whole;
  #pragma omp parallel
  #pragma omp single
  {
    #pragma omp task
    *p = 1;
    #pragma omp task
    w.bytes[1] = 2;
  }
  return 0;
}
