#include <stdlib.h>
int main(void) {
    unsigned state = 1;
    int a = 0, b = 0;
#pragma omp parallel
#pragma omp single
    {
#pragma omp task shared(a, state)
        a = rand_r(&state);
#pragma omp task shared(b, state)
        b = rand_r(&state);
    }
    return a + b;
}
