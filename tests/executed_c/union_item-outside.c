union word { int whole; char bytes[4]; };
union word w;
int main(void) {
  #pragma omp parallel
  #pragma omp single
  {
    #pragma omp task depend(out : w.whole)
    w.whole = 1;
    #pragma omp task depend(in : w.bytes[0])
    w.bytes[0] = 2;
  }
  return 0;
}
