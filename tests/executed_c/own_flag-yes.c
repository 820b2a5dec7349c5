/* each thread finds a 0, and says so where others say so too */
int a[8], any;
int main(void) {
#pragma omp parallel
    {
        int found = 0;
#pragma omp for
        for (int i = 0; i < 8; i++)
            if (a[i] == 0)
                found = 1;
        if (found)
            any = 1;
    }
    return any;
}
