/* Strings that nobody writes are printed by pointers, by tasks and by the program at once. */
#include <stdio.h>
static int a[4];
static void say(const char *name, int value) { printf("%s = %d\n", name, value); }
int main(int argc, char **argv)
{
    const char *title = "values";
    printf("%s %s\n", argv[0], title);
    #pragma omp parallel
    #pragma omp single
    {
        #pragma omp task shared(a)
        { a[0] = 1; say(title, a[0]); }
        say(title, argc);
        #pragma omp taskwait
        say("a", a[0]);
    }
    return 0;
}
