/* clang 14 --target=riscv32 -march=rv32im -mabi=ilp32 -O1 -c source.c -o object.o */
struct pair { int a; short b; unsigned char c; };
int narrow(struct pair *p) { p->a = p->b; return p->c; }
int at(int *p, int i) { return p[i]; }
unsigned share(unsigned a, unsigned b) { return a / b; }
int less(int a, int b) { return a < b; }
int shift(int a, unsigned b) { return (a >> 3) + (b >> 4); }
extern int count;
int next(void) { return ++count; }
void idle(void) {}
void hook(void (**at)(void)) { *at = idle; }
int which(int c, int *p, int *q) { int *r = c ? p : q; return *r; }
struct item { int value; struct item *next; };
int last(struct item *i) { struct item *n; while ((n = i->next)) i = n; return i->value; }
int ninth(int a, int b, int c, int d, int e, int f, int g, int h, int i) { return i; }
