union mix { int of[8]; char bytes[32]; };
union mix m;
int main(void) {
  #pragma omp parallel for
  for (int i = 0; i < 4; i++) {
    m.of[i] = i;
    m.bytes[16 + i] = 1;
    m.of[i] += m.bytes[16 + i];
  }
  return 0;
}
