int s, t;
int main(void) {
  #pragma omp parallel
  {
    #pragma omp sections reduction(+ : s) nowait
    {
      #pragma omp section
      s += 1;
      #pragma omp section
      s += 2;
    }
    #pragma omp single
    s = 7;
  }
  return t;
}
