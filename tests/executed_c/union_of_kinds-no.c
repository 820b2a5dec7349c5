#include <stdlib.h>
struct node {
  int is_leaf;
  union { double value; struct node *kids[2]; };
};
struct node *made(int depth) {
  struct node *n = malloc(sizeof(struct node));
  n->is_leaf = depth == 0;
  if (depth == 0)
    n->value = 1.0;
  else
    for (int k = 0; k < 2; k++)
      n->kids[k] = made(depth - 1);
  return n;
}
double sum(struct node *n) {
  if (n->is_leaf)
    return n->value;
  double a, b;
  #pragma omp task shared(a)
  a = sum(n->kids[0]);
  #pragma omp task shared(b)
  b = sum(n->kids[1]);
  #pragma omp taskwait
  return a + b;
}
int main(void) {
  struct node *root = made(3);
  #pragma omp parallel
  #pragma omp single
  sum(root);
  return 0;
}
