/* which element a task gets depends on the order in which tasks take the lock */
struct element { struct element *next; int value; } all[4], *top;
int main(void){
for(int i=0;i<4;i++){ all[i].next = top; top = &all[i]; }
#pragma omp parallel
#pragma omp single
for(int t=0;t<2;t++){
#pragma omp task
{ struct element *mine;
#pragma omp critical
{ mine = top; top = mine->next; }
mine->value = t;
}
}
return 0; }
