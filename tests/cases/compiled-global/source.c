/* clang 14 --target=riscv32 -march=rv32im -mabi=ilp32 -O1 -c source.c -o object.o */
extern int count;
int get(void) { return count; }
