#include <stdio.h>
#define WIDE 16
#define HIGH 8

/* Loops that are left where a number is reached of which nothing is known: behind the first ten numbers a task looks at the next row. */
static int image[HIGH][WIDE], where[HIGH];

static int turns(double x, double y)
{
    double a = 0, b = 0;
    int n;
    for (n = 0; n < 50; n++) {
        double next = a * a - b * b + x;
        b = 2 * a * b + y;
        a = next;
        if (a * a + b * b > 4)
            break;
    }
    return n;
}

int main(void)
{
    double values[HIGH][WIDE];
    for (int y = 0; y < HIGH; y++)
        for (int x = 0; x < WIDE; x++)
            values[y][x] = x * y / 3.0;
    #pragma omp parallel
    #pragma omp single
    for (int y = 0; y < HIGH; y++) {
        #pragma omp task shared(values)
        {
            for (int x = 0; x < WIDE; x++)
                image[y][x] = turns(-2 + 3.0 * x / WIDE, -1 + 2.0 * y / HIGH);
            where[y] = -1;
            for (int x = 0; x < WIDE; x++)
                if (values[y][x] > 2.5 || (x > 9 && image[(y + 1) % HIGH][x])) {
                    where[y] = x;
                    break;
                }
        }
    }
    printf("%d %d\n", image[1][2], where[3]);
    return 0;
}
