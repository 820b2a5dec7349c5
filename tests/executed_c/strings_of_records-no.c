/* Each task prints the name of its own record and changes another member of it; the names stand beside those of the others. */
#include <stdio.h>
#include <string.h>
static struct person { char name[20]; int age; } people[4];
int main(void)
{
    for (int i = 0; i < 4; i++) {
        strcpy(people[i].name, "abc");
        people[i].age = i;
    }
    #pragma omp parallel
    #pragma omp single
    for (int i = 0; i < 4; i++) {
        #pragma omp task firstprivate(i)
        {
            snprintf(people[i].name, sizeof people[i].name, "person %d", i);
            people[i].age++;
            printf("%s %d\n", people[i].name, people[i].age);
        }
    }
    return 0;
}
