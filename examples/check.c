extern void abort(void) __attribute__((noreturn));
extern void exit(int) __attribute__((noreturn));
extern void __assert_func(const char *, int, const char *, const char *) __attribute__((noreturn));
int first(int *p) {
  if (!p)
    __assert_func("check.c", 6, "first", "p");
  return *p;
}
void leave(int *status) {
  exit(*status);
}
int last(int *p) {
  if (!p)
    abort();
  return p[1];
}
