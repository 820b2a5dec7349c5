int x;
int main(int argc, char **argv) {
    if (x == 0)
        goto past;
    int a[2] = {1, 2};
past:
    a[0] = 3;
    return a[0];
}
