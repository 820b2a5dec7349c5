/* An enumeration is an int where a value is below 0, and else an unsigned int, as compilers take it. */
typedef enum { FIRST = -2, NEXT, LAST } step;
enum place { BELOW = 1 - 2, ABOVE = 2 };
enum count { NONE, SOME = 5 - 3, MOST = ~0u >> 1, SIGNED = -1 < 0 };
struct cell { enum place place; enum count count; };
int x;
static int is_below(enum place place)
{
    return place < 0;
}
static int hidden(void)
{
    enum place { HERE };
    enum place inner = HERE;
    return inner - 1 < 0;
}
int main(void)
{
    step next = NEXT;
    struct cell cell = {BELOW, NONE};
    enum { LEAST = -2147483647 - 1 } least = LEAST;
    int wrong = next >= 0 || cell.place >= 0 || least >= 0 || !is_below(BELOW) || (enum place)-1 >= 0;
    wrong = wrong || hidden() || cell.count - 1 < 0 || (enum count)-1 < 0;
    #pragma omp parallel
    #pragma omp single
    {
        #pragma omp task
        x = 1;
        if (wrong) {
            #pragma omp task
            x = 2;
        }
    }
    return 0;
}
