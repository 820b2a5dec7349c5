#include <stdlib.h>

/* What is read was freed before. */
int main(void)
{
    int *p = malloc(4 * sizeof *p);
    p[0] = 1;
    free(p);
    return p[0];
}
