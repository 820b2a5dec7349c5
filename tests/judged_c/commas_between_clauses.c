/* Clauses may have commas between them; what default(none) has listed is read as ever. */
#include <stdint.h>
int main(void)
{
    uint64_t x = 0, y = 0;
    #pragma omp parallel num_threads(2), default(none), shared(x, y)
    #pragma omp single
    {
        #pragma omp task depend(out: x), untied
        x = 1;
        #pragma omp task depend(in: x), depend(out: y), priority(1) mergeable
        y = x;
    }
    return 0;
}
