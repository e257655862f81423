/* clang 14 --target=riscv32 -march=rv32im -mabi=ilp32 -O0 -c source.c -o object.o */
struct pair { int first; int second; };
int get(struct pair *p) { return p->second; }
