/* clang 14 --target=riscv32 -march=rv32im -mabi=ilp32 -O2 -c source.c -o object.o */
int apply(int (*f)(int), int n) { return f(n); }
