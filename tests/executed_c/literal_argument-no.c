struct pair { int one, other; };
int sum;
static int add(struct pair p) { return p.one + p.other; }
static int add_at(const struct pair *p) { return p->one + p->other; }
int main(void) {
    struct pair *first = &(struct pair){1, 2};
#pragma omp parallel
#pragma omp single
    {
#pragma omp task depend(inout : sum)
        sum += add((struct pair){3, 4});
#pragma omp task depend(inout : sum)
        sum += add_at(&(struct pair){.other = 5});
#pragma omp task shared(first) depend(inout : sum)
        sum += first->one;
    }
    return sum;
}
