int main(void)
{
    int sum = 0;
    #pragma omp parallel for reduction(total: sum)
    for (int i = 0; i < 4; i++)
        sum += i;
    return sum;
}
