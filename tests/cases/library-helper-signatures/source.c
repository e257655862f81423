/* clang 14 --target=riscv32 -march=rv32im -mabi=ilp32 -O1 -fno-optimize-sibling-calls -mno-relax -c source.c -o object.o */
long long share(long long a, long long b) { return a / b; }
double twice(const double *number) { return *number + *number; }
int whole(const double *number) { return *number; }
unsigned get(unsigned *word) { return __atomic_load_n(word, 5); }
