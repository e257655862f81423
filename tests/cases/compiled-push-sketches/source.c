/* clang 14 --target=riscv32 -march=rv32im -mabi=ilp32 -O1 -c source.c -o object.o */
struct item { int value; struct item *next; };
void push(struct item *item, struct item **list) { item->next = *list; *list = item; }
