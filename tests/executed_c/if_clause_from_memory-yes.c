/* where `on` isn't 0 the task is deferred, and its parent writes `s` beside it */
int on, s;
void fill(int *);
int main(void)
{
    fill(&on);
    #pragma omp parallel
    #pragma omp single
    {
        #pragma omp task if(on)
        s = 1;
        s = 2;
    }
    return 0;
}
