int fib(int n) { return n < 2 ? n : fib(n - 1) + fib(n - 2); }
int all[2];
int main(void) {
  #pragma omp parallel
  {
    int n = 0;
    #pragma omp single
    {
      #pragma omp task shared(n)
      n = fib(3);
      #pragma omp taskwait
      all[0] = n;
    }
  }
  return 0;
}
