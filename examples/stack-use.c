// A program that links against stack.o, whose source is lost: stack.h is its header, and the names are those of its symbols.
#define f0 push
#define f1 pop
#define f2 second
#include "stack.h"

static struct s0 top;

int main(void) {
  push(&top, 3);
  push(&top, 4);
  return second(&top) == 3 ? 0 : 1;
}
