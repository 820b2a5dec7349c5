int main(void) {
    int i = 0;
    {
    again:;
        int a[2] = {1, 2};
        i += a[0];
    }
    if (i < 3)
        goto again;
    return i;
}
