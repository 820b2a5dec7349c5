union mix { int of[8]; char bytes[32]; };
union mix m;
int main(void) {
  #pragma omp parallel for
  for (int i = 0; i < 4; i++) {
    m.of[i] = i;
    m.bytes[15 + i] = 1;
  }
  return 0;
}
