int main(void) {
  #pragma omp parallel
  {
    int x = 0;
    #pragma omp for
    for (int i = 0; i < 8; i++) {
      #pragma omp task shared(x)
      x = i;
    }
  }
  return 0;
}
