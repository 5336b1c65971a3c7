/* What nan.c and sessions.c share. There are no headers of the C library where they are compiled: what is called is declared. */

typedef unsigned long word;
int printf(const char *, ...);

#define ONE_NAN 0x7ff8000000000000UL
#define SIGN 0x8000000000000000UL
#define TOP 0x7ff0000000000000UL

/* Bits are read and written as whole numbers: no operation on a NaN comes between. */
static inline word bits(double x) { union { double x; word w; } u = { .x = x }; return u.w; }
static inline double number(word w) { union { double x; word w; } u = { .w = w }; return u.x; }
static inline int nan_bits(word w) { return (w & ~SIGN) > TOP; }

/* What a NaN can come from: NaN of both signs and kinds, infinities, zeros, and numbers whose sums, products and quotients
   overflow or vanish. */
#define SOURCES 14
extern const word sources[SOURCES];

/* A pattern is read; one that is not right is shown and counted. */
extern word patterns, wrong;
void see(const char *name, word input, word got, word right);

void see_sessions(void);
