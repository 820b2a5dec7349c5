union word { int whole; char bytes[4]; };
int a[8];
int main(void) {
  union word w = {3};
  union word v;
  v = w;
  #pragma omp parallel for
  for (int i = 0; i < v.whole; i++)
    a[i] = 1;
  return 0;
}
