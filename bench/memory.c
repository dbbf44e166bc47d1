/* Counts the bytes of heap that live, for the harness that is built to measure memory. The linker puts these functions in
 * the place of the C library's, by --wrap, wherever the harness or the measured library calls them.
 *
 * What counts is what was asked for, not what the C library spends on it. A block that grows counts once, even where the C
 * library copies it. Each block has a head before it, so only blocks of these functions may be given back. */
#include <stddef.h>

struct head { size_t size, offset; }; /* what was asked for, and how far after the start of the C library's block it lies */

size_t memory_live, memory_peak;

void *__real_malloc(size_t size), *__real_calloc(size_t count, size_t size), *__real_realloc(void *start, size_t size);
void __real_free(void *start);
int __real_posix_memalign(void **start, size_t alignment, size_t size);

static struct head *head_of(void *block) { return (struct head *)block - 1; }
static void *start_of(void *block) { return (char *)block - head_of(block)->offset; }

/* Counts a block in the C library's, and answers it. */
static void *hand_out(void *start, size_t offset, size_t size) {
  if (!start) return NULL;
  void *block = (char *)start + offset;
  *head_of(block) = (struct head){ size, offset };
  memory_live += size;
  if (memory_live > memory_peak) memory_peak = memory_live;
  return block;
}

void *__wrap_malloc(size_t size) {
  return hand_out(__real_malloc(sizeof(struct head) + size), sizeof(struct head), size);
}

void *__wrap_calloc(size_t count, size_t each) {
  size_t size;
  if (__builtin_mul_overflow(count, each, &size)) return NULL;
  return hand_out(__real_calloc(1, sizeof(struct head) + size), sizeof(struct head), size);
}

void *__wrap_realloc(void *block, size_t size) {
  if (!block) return __wrap_malloc(size);
  struct head old = *head_of(block);
  void *start = __real_realloc(start_of(block), old.offset + size);
  if (start) memory_live -= old.size;
  return hand_out(start, old.offset, size);
}

void __wrap_free(void *block) {
  if (!block) return;
  memory_live -= head_of(block)->size;
  __real_free(start_of(block));
}

int __wrap_posix_memalign(void **block, size_t alignment, size_t size) {
  size_t offset = alignment > sizeof(struct head) ? alignment : sizeof(struct head);
  void *start;
  int refused = __real_posix_memalign(&start, alignment, offset + size);
  if (!refused) *block = hand_out(start, offset, size);
  return refused;
}

void *__wrap_aligned_alloc(size_t alignment, size_t size) {
  void *block;
  return __wrap_posix_memalign(&block, alignment > sizeof(void *) ? alignment : sizeof(void *), size) ? NULL : block;
}
