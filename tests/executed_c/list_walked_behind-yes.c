// What is written under a lock isn't known behind, so the walk isn't judged; the race before it is one all the same.
#include <stdio.h>
#include <stdlib.h>
struct node {
  int number;
  struct node *next;
};
int main(void) {
  struct node *head = NULL;
  int count = 0;
#pragma omp parallel
#pragma omp single
  for (int i = 0; i < 5; i++)
#pragma omp task firstprivate(i) shared(head, count)
  {
    struct node *one = malloc(sizeof *one);
    one->number = i;
    count++;
#pragma omp critical
    {
      one->next = head;
      head = one;
    }
  }
  while (head) {
    struct node *next = head->next;
    free(head);
    head = next;
  }
  printf("%d\n", count);
  return 0;
}
