union word { int whole; char bytes[4]; };
union word w;
int main(void) {
  #pragma omp parallel
  #pragma omp single
  {
    #pragma omp task
    w.bytes[0] = 1;
    #pragma omp task
    w.bytes[3] = 2;
  }
  return 0;
}
