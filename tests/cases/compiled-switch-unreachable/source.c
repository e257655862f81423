/* clang 14 --target=riscv32 -march=rv32im -mabi=ilp32 -O1 -c source.c -o object.o */
void a(void), b(void), c(void), d(void), e(void);
void choose(int n) {
    switch (n) {
    case 0: a(); break;
    case 2: b(); break;
    case 3: c(); break;
    case 4: d(); break;
    case 6: e(); break;
    default: __builtin_unreachable();
    }
}
