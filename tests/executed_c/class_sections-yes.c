/* A section reads what another one writes. */
int x, y;
int main(void)
{
    #pragma omp parallel sections
    {
        #pragma omp section
        x = 1;
        #pragma omp section
        y = x;
    }
    return 0;
}
