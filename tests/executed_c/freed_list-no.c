/* pointers that are freed are those of the run: none of them is null */
#include <stdlib.h>
struct node { struct node *next; int key; };
int total;
int main(void)
{
    struct node *head = NULL;
    for (int i = 0; i < 20; i++) {
        struct node *n = malloc(sizeof *n);
        n->next = head;
        n->key = i;
        head = n;
    }
    #pragma omp parallel
    #pragma omp single
    for (struct node *p = head; p != NULL; p = p->next) {
        #pragma omp task firstprivate(p)
        p->key++;
    }
    while (head) {
        struct node *next = head->next;
        total += head->key;
        free(head);
        head = next;
    }
    return 0;
}
