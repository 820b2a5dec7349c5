union word { int whole; char bytes[4]; };
union word w;
int main(void) {
  int seen = 0;
  #pragma omp parallel
  #pragma omp single
  {
    #pragma omp task
    w.bytes[3] = 2;
    #pragma omp task shared(seen)
    seen = w.whole;
  }
  return seen;
}
