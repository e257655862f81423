/* clang 14 --target=armv7 -O1 -c source.c -o object.o */
struct pair { int first; int second; };
int get(struct pair *p) { return p->second; }
