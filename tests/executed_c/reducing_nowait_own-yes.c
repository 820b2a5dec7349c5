int s, t;
int main(void) {
  #pragma omp parallel
  {
    #pragma omp for reduction(+ : s) nowait
    for (int i = 0; i < 4; i++) s += i;
    int x = s;
    x++;
  }
  return t;
}
