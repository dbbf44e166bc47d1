/* Makes one allocation of a program fail: the one whose number, counted from 1, is in FAIL_ALLOCATION. When it does, it
 * writes an x to the descriptor REPORT_TO, and a k at the end where the program has not freed all memory. It is loaded
 * before the C library. It includes no header, so that the kit's compiler builds it alone. */
typedef unsigned long size;
extern void *dlsym(void *handle, const char *name);
extern char *getenv(const char *name);
extern long atol(const char *text);
extern long write(int to, const void *bytes, size count);

/* The next library that has the function. */
#define NEXT(name) dlsym((void *)-1L, name)

static long left = -1;
static int to = -1;
static int is_set;

/* How many blocks of memory the program holds. */
static long held;

static void set(void) {
  const char *number = getenv("FAIL_ALLOCATION"), *where = getenv("REPORT_TO");
  is_set = 1;
  if (number) left = atol(number);
  if (where) to = (int)atol(where);
}

/* Whether this allocation is the one that fails. */
static int fails(void) {
  if (!is_set) set();
  if (left <= 0 || --left > 0) return 0;
  left = -1;
  if (to >= 0) (void)!write(to, "x", 1);
  return 1;
}

static void *counted(void *block) {
  if (block) held++;
  return block;
}

void *malloc(size n) {
  static void *(*real)(size);
  if (!real) real = NEXT("malloc");
  return fails() ? 0 : counted(real(n));
}

void *realloc(void *old, size n) {
  static void *(*real)(void *, size);
  if (!real) real = NEXT("realloc");
  if (fails()) return 0;
  return old ? real(old, n) : counted(real(old, n));
}

void free(void *old) {
  static void (*real)(void *);
  if (!real) real = NEXT("free");
  if (old) held--;
  real(old);
}

void *aligned_alloc(size alignment, size n) {
  static void *(*real)(size, size);
  if (!real) real = NEXT("aligned_alloc");
  return fails() ? 0 : counted(real(alignment, n));
}

__attribute__((destructor)) static void end(void) {
  if (!is_set) set();
  if (held > 0 && to >= 0) (void)!write(to, "k", 1);
}
