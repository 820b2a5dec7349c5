/* A task for each node, and all are awaited at the end of the region. */
#include <stdio.h>
#include <stdlib.h>

struct node {
    int value;
    int square;
    struct node *next;
};

void process(struct node *p)
{
    p->square = p->value * p->value;
}

int main(void)
{
    struct node *head = NULL;
    for (int i = 10; i > 0; i--) {
        struct node *n = malloc(sizeof *n);
        n->value = i;
        n->square = 0;
        n->next = head;
        head = n;
    }
    #pragma omp parallel
    {
        #pragma omp single
        {
            for (struct node *p = head; p != NULL; p = p->next) {
                #pragma omp task firstprivate(p)
                process(p);
            }
        }
    }
    int sum = 0;
    for (struct node *p = head; p; p = p->next)
        sum += p->square;
    printf("%d\n", sum);
    while (head) {
        struct node *next = head->next;
        free(head);
        head = next;
    }
    return 0;
}
