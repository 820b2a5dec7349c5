struct part { int first; int count; };
int a[8];
int asked(void);
int main(void) {
  struct part part;
  part.count = 3;
  part.first = asked();
  #pragma omp parallel for
  for (int i = 0; i < part.count; i++)
    a[i / 2] = 1;
  return part.first;
}
