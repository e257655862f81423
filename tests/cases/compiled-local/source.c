/* clang 14 --target=riscv32 -march=rv32im -mabi=ilp32 -O0 -c source.c -o object.o */
int get(int *p) { return *p; }
int local(void) { int x = 1; int *p = &x; return *p; }
