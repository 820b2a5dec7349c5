struct pair { int low; int high; };
union both { struct pair pair; short parts[4]; double all; };
union both b;
int main(void) {
  #pragma omp parallel
  #pragma omp single
  {
    #pragma omp task
    b.parts[2] = 1;
    #pragma omp task
    b.pair.high = 2;
  }
  return 0;
}
