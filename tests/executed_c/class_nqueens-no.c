/* Solutions are counted by an atomic. */
#include <stdio.h>
#include <stdlib.h>
#include <string.h>

int solutions = 0;

int safe(const int *board, int row, int col)
{
    for (int i = 0; i < row; i++)
        if (board[i] == col || board[i] - col == i - row || board[i] - col == row - i)
            return 0;
    return 1;
}

void place(const int *board, int row, int n)
{
    if (row == n) {
        #pragma omp atomic
        solutions++;
        return;
    }
    for (int col = 0; col < n; col++) {
        if (safe(board, row, col)) {
            #pragma omp task
            {
                int mine[8];
                memcpy(mine, board, row * sizeof(int));
                mine[row] = col;
                place(mine, row + 1, n);
            }
        }
    }
    #pragma omp taskwait
}

int main(void)
{
    int board[8];
    #pragma omp parallel
    #pragma omp single
    place(board, 0, 4);
    printf("%d\n", solutions);
    return 0;
}
