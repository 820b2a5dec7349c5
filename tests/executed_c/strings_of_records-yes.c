/* A task prints the name of the next record, which that record's own task writes. */
#include <stdio.h>
#include <string.h>
static struct person { char name[20]; int age; } people[4];
int main(void)
{
    #pragma omp parallel
    #pragma omp single
    for (int i = 0; i < 3; i++) {
        #pragma omp task firstprivate(i)
        {
            strcpy(people[i].name, "abc");
            printf("%s\n", people[i + 1].name);
        }
    }
    return 0;
}
