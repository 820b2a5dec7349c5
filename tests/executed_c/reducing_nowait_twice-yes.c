int s;
int main(void) {
  #pragma omp parallel
  {
    #pragma omp for reduction(+ : s) nowait
    for (int i = 0; i < 4; i++) s += i;
    #pragma omp for reduction(+ : s)
    for (int i = 0; i < 4; i++) s += i;
  }
  return s;
}
