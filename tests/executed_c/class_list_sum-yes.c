/* Tasks add to one sum. */
#include <stdio.h>
#include <stdlib.h>

typedef struct node {
    int value;
    struct node *next;
} node_t;

int main(void)
{
    node_t *head = NULL;
    int sum = 0;
    for (int i = 0; i < 10; i++) {
        node_t *n = (node_t *)malloc(sizeof(node_t));
        n->value = i;
        n->next = head;
        head = n;
    }
    #pragma omp parallel
    #pragma omp single
    {
        node_t *p = head;
        while (p) {
            #pragma omp task firstprivate(p)
            {
                sum += p->value;
            }
            p = p->next;
        }
        #pragma omp taskwait
    }
    printf("%d\n", sum);
    return 0;
}
