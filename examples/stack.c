struct item { int value; struct item *next; };
extern void *malloc(unsigned);
extern void free(void *);
int push(struct item **top, int value) {
  struct item *i = malloc(sizeof *i);
  if (!i) return 0;
  i->value = value;
  i->next = *top;
  *top = i;
  return 1;
}
int pop(struct item **top) {
  struct item *i = *top;
  int value = i->value;
  *top = i->next;
  free(i);
  return value;
}
int second(struct item **top) {
  pop(top);
  return pop(top);
}
