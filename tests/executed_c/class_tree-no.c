/* The sums of both sides are awaited. */
#include <stdio.h>
#include <stdlib.h>

typedef struct tree {
    int key;
    struct tree *left, *right;
} tree;

tree *insert(tree *t, int key)
{
    if (!t) {
        t = calloc(1, sizeof *t);
        t->key = key;
        return t;
    }
    if (key < t->key)
        t->left = insert(t->left, key);
    else
        t->right = insert(t->right, key);
    return t;
}

long sum(tree *t)
{
    if (t == NULL)
        return 0;
    long l = 0, r = 0;
    #pragma omp task shared(l)
    l = sum(t->left);
    #pragma omp task shared(r)
    r = sum(t->right);
    #pragma omp taskwait
    return l + r + t->key;
}

int main(void)
{
    tree *root = NULL;
    int keys[] = {50, 30, 70, 20, 40, 60, 80};
    for (int i = 0; i < 7; i++)
        root = insert(root, keys[i]);
    long s = 0;
    #pragma omp parallel shared(s, root)
    {
        #pragma omp single
        s = sum(root);
    }
    printf("%ld\n", s);
    return 0;
}
