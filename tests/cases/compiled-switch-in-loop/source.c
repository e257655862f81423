/* clang 14 --target=riscv32 -march=rv32im -mabi=ilp32 -O1 -c source.c -o object.o */
void a(void), b(void), c(void), d(void), e(void);
void all(int *n) {
    for (; *n; n++)
        switch (*n) {
        case 1: a(); break;
        case 2: b(); break;
        case 3: c(); break;
        case 4: d(); break;
        case 5: e(); break;
        }
}
