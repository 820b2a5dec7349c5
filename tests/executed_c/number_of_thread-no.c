#include <omp.h>
#include <stdio.h>
#include <stdlib.h>
#define N 40

/* Each task counts where its thread's number says: those of one thread are executed one after another. */
long many[64], wide[64][8];
struct part { long sum; int count; } parts[64];

static void note(int k)
{
    many[omp_get_thread_num()] += k;
}

int main(void)
{
    long all = 0;
    #pragma omp parallel
    #pragma omp single
    {
        for (int i = 0; i < N; i++) {
            #pragma omp task
            {
                int id = omp_get_thread_num();
                many[id] += i;
                wide[id][0]++;
                parts[id].sum += i;
                parts[omp_get_thread_num()].count++;
                note(i);
            }
        }
        #pragma omp taskwait
        for (int t = 0; t < omp_get_num_threads(); t++)
            all += many[t] + wide[t][0] + parts[t].sum;
    }
    printf("%ld\n", all);
    return 0;
}
