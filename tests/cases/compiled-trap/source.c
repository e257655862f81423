/* clang 14 --target=riscv32 -march=rv32im -mabi=ilp32 -O1 -c source.c -o object.o */
int get(int *p) {
    if (p == 0) __builtin_trap();
    return *p;
}
