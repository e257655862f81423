/* clang 14 --target=riscv64 -march=rv64im -mabi=lp64 -O1 -c source.c -o object.o */
struct pair { int first; int second; };
int get(struct pair *p) { return p->second; }
