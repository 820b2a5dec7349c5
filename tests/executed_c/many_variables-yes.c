/* a value from memory in the last of some 5,000 variables decides whether `s` is written twice */
#define V1(n) int n##a = 0, n##b = 1, n##c = 2, n##d = 3, n##e = 4, n##f = 5, n##g = 6, n##h = 7;
#define V2(n) V1(n##a) V1(n##b) V1(n##c) V1(n##d) V1(n##e) V1(n##f) V1(n##g) V1(n##h)
#define V3(n) V2(n##a) V2(n##b) V2(n##c) V2(n##d) V2(n##e) V2(n##f) V2(n##g) V2(n##h)
#define V4(n) V3(n##a) V3(n##b) V3(n##c) V3(n##d) V3(n##e) V3(n##f) V3(n##g) V3(n##h)
int s;
int b[1];
void fill(int *);
int main(void)
{
    V4(p) V3(q) V3(r)
    int last;
    fill(b);
    last = b[0];
    #pragma omp parallel
    #pragma omp single
    {
        #pragma omp task
        s = 1;
        if (last)
            s = 2;
    }
    return 0;
}
