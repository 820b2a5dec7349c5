union word { int whole; char bytes[4]; };
int a[8];
int main(void) {
  union word w;
  w.whole = 1;
  w.bytes[1] = 0;
  for (int i = 0; i < w.whole; i++)
    a[i] = 1;
  return 0;
}
