union word { int whole; char bytes[4]; };
union word w;
int main(void) {
  #pragma omp parallel
  #pragma omp single
  {
    #pragma omp task depend(out : w)
    w.whole = 1;
    #pragma omp task depend(inout : w)
    w.bytes[0] = 2;
  }
  return 0;
}
