/* The tasks of a factorization by blocks depend on their blocks. */
#include <stdio.h>
#define NB 4
#define BS 4

void potrf(double *a) { for (int i = 0; i < BS * BS; i++) a[i] += 1; }
void trsm(double *a, double *b) { for (int i = 0; i < BS * BS; i++) b[i] += a[i]; }
void syrk(double *a, double *b) { for (int i = 0; i < BS * BS; i++) b[i] -= a[i] * a[i]; }
void gemm(double *a, double *b, double *c) { for (int i = 0; i < BS * BS; i++) c[i] -= a[i] * b[i]; }

double blocks[NB][NB][BS * BS];

int main(void)
{
    #pragma omp parallel
    #pragma omp single
    for (int k = 0; k < NB; k++) {
        #pragma omp task depend(inout: blocks[k][k])
        potrf(blocks[k][k]);
        for (int i = k + 1; i < NB; i++) {
            #pragma omp task depend(in: blocks[k][k]) depend(inout: blocks[k][i])
            trsm(blocks[k][k], blocks[k][i]);
        }
        for (int i = k + 1; i < NB; i++) {
            for (int j = k + 1; j < i; j++) {
                #pragma omp task depend(in: blocks[k][i], blocks[k][j]) depend(inout: blocks[j][i])
                gemm(blocks[k][i], blocks[k][j], blocks[j][i]);
            }
            #pragma omp task depend(in: blocks[k][i]) depend(inout: blocks[i][i])
            syrk(blocks[k][i], blocks[i][i]);
        }
    }
    printf("%f\n", blocks[0][0][0]);
    return 0;
}
