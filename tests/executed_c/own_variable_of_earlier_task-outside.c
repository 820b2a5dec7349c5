int main(void) {
  #pragma omp parallel
  {
    int x = 0;
    #pragma omp task shared(x)
    x = 1;
    #pragma omp for
    for (int i = 0; i < 8; i++)
      x += i;
  }
  return 0;
}
