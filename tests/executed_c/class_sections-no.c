/* What sections write is read behind their end. */
int x, y, z;
int main(void)
{
    #pragma omp parallel
    {
        #pragma omp sections
        {
            #pragma omp section
            x = 1;
            #pragma omp section
            y = 2;
        }
        #pragma omp single
        z = x + y;
    }
    return z - 3;
}
