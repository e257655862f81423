/* clang 14 --target=riscv32 -march=rv32im -mabi=ilp32 -O1 -fno-optimize-sibling-calls -mno-relax -c source.c -o object.o */
extern void *malloc(unsigned);
extern void *memcpy(void *, const void *, unsigned);
extern unsigned strlen(const char *);
extern int strcmp(const char *, const char *);
extern void qsort(void *, unsigned, unsigned, int (*)(const void *, const void *));
extern void exit(int) __attribute__((noreturn));
struct name { unsigned length; char *text; };
void keep(struct name *name, const char *text) {
  name->length = strlen(text);
  name->text = malloc(name->length + 1);
  if (!name->text)
    exit(1);
  memcpy(name->text, text, name->length + 1);
}
int order(const struct name *a, const struct name *b) { return strcmp(a->text, b->text); }
void sort(struct name *names, unsigned count, int (*order)(const void *, const void *)) {
  qsort(names, count, sizeof *names, order);
}
