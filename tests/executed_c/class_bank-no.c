/* Two locks for each transfer, the lower one first. */
#include <stdio.h>
#include <omp.h>
#define ACCOUNTS 5

int balance[ACCOUNTS];
omp_lock_t lock[ACCOUNTS];

void transfer(int from, int to, int amount)
{
    int first = from < to ? from : to;
    int second = from < to ? to : from;
    omp_set_lock(&lock[first]);
    omp_set_lock(&lock[second]);
    balance[from] -= amount;
    balance[to] += amount;
    omp_unset_lock(&lock[second]);
    omp_unset_lock(&lock[first]);
}

int main(void)
{
    for (int i = 0; i < ACCOUNTS; i++) {
        balance[i] = 100;
        omp_init_lock(&lock[i]);
    }
    #pragma omp parallel for
    for (int i = 0; i < 20; i++)
        transfer(i % ACCOUNTS, (i + 1) % ACCOUNTS, i);
    int total = 0;
    for (int i = 0; i < ACCOUNTS; i++) {
        total += balance[i];
        omp_destroy_lock(&lock[i]);
    }
    printf("%d\n", total);
    return 0;
}
