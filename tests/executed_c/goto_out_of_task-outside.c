int x;
int main(void) {
#pragma omp task
    {
        x = 1;
        goto out;
    }
out:
    return 0;
}
