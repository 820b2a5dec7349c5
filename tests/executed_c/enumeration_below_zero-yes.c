/* A value below 0 stays so in an enumeration that has it. */
enum level { LOW = -1, HIGH };
int x;
int main(void)
{
    enum level level = LOW;
    #pragma omp parallel
    #pragma omp single
    {
        #pragma omp task
        x = 1;
        if (level < 0) {
            #pragma omp task
            x = 2;
        }
    }
    return 0;
}
