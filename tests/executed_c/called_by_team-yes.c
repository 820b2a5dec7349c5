int x;
static void all(void) { x += 1; }
int main(void) {
#pragma omp parallel
    all();
    return 0;
}
