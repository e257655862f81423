/* clang 14 --target=riscv32 -march=rv32im -mabi=ilp32 -O1 -ffunction-sections -c source.c -o object.o */
struct item { int value; struct item *next; };
void push(struct item *item, struct item **list) { item->next = *list; *list = item; }
struct item *next(struct item *item) { return item->next; }
