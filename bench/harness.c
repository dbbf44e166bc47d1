/* Times reading in both modes and into trees, writing, sort keys, comparing and cloning over files of documents, one
 * document a line.
 *
 *   harness FILE..               prints a line for each file and operation: the file, the operation, how many bytes, the
 *                                nanoseconds of one pass over the file, and its instructions, or - where they can't be counted
 *   harness --has-counter        succeeds where instructions can be counted here
 *   harness --time FILE..        prints the same lines with the processor's time: the median of a pass, and in the place of
 *                                instructions the page faults of all passes that were timed; of reading, of writing with
 *                                and with no value between, of comparing and of cloning alone
 *   harness --time-of OP FILE..  prints the same lines of that operation
 *   harness --pass OP N FILE     makes one pass over the file with N rounds of the operation on each document, for a tool
 *                                that counts from outside
 *   harness --peak FILE..        prints a line for each file: the file, the word peak, how many bytes, the bytes of heap that
 *                                live at most while a document is read, its value among them, added up over the file, and -
 *   harness --peak-of OP FILE..  prints the same lines of that operation, with its name in the place of the word peak
 *
 * Beside a file KIND.json there may be KIND.paths, with a path (RFC 6901) for each document in turn. Where there is, parts
 * are taken there.
 *
 * The documents of a file whose name ends in .json5 are of extended mode, and are only read. Those of a .rejected file are
 * no documents, and are only rejected. Those of a .exponents file are standard JSON but for the exponents of their
 * numbers, which are only written out.
 *
 * With NO_COUNTER set it opens no counter. PREFIX is what the names of the measured library's functions begin with.
 * WITH_EXTENDED is defined where the library reads extended mode, WITH_AST where it reads into trees, WITH_SORT_KEY where
 * it writes sort keys, WITH_STRAIGHT where it writes texts and sort keys while it parses, WITH_CHECK where it checks a text
 * and makes nothing, WITH_PART where it writes a part, WITH_SORTED where it writes a text whose members are sorted by their
 * keys and whose repeated keys are rejected, WITH_REJECT where it tells how often it rejects a text, WITH_EXPONENTS where it
 * writes numbers with exponents out, and WITH_MEMORY where memory.c is linked, as --peak needs it and as the times
 * must not have it.
 * WITHOUT_READ is defined where it reads no values, WITHOUT_VALUES where it compares and clones none, and WITH_READ_WRITE where it writes only what it has
 * just read. */
#define _GNU_SOURCE
#include <linux/perf_event.h>
#include <malloc.h>
#include <stdint.h>
#include <stdio.h>
#include <stdlib.h>
#include <string.h>
#include <sys/ioctl.h>
#include <sys/resource.h>
#include <sys/syscall.h>
#include <time.h>
#include <unistd.h>

#ifndef PREFIX
#define PREFIX jsonb_bench
#endif
#define JOIN_(a, b) a##_##b
#define JOIN(a, b) JOIN_(a, b)

typedef size_t operation_t(const unsigned char *text, size_t len, size_t rounds);
#ifndef WITHOUT_READ
operation_t JOIN(PREFIX, read);
#endif
#ifdef WITH_READ_WRITE
operation_t JOIN(PREFIX, read_write);
#else
operation_t JOIN(PREFIX, write);
#endif
#ifndef WITHOUT_VALUES
operation_t JOIN(PREFIX, compare), JOIN(PREFIX, clone);
#endif
#ifdef WITH_EXTENDED
operation_t JOIN(PREFIX, read_extended);
#endif
#ifdef WITH_REJECT
operation_t JOIN(PREFIX, reject);
#endif
#ifdef WITH_AST
operation_t JOIN(PREFIX, read_ast);
#endif
#ifdef WITH_LINES
operation_t JOIN(PREFIX, lines);
#endif
#ifdef WITH_SORT_KEY
operation_t JOIN(PREFIX, sort_key);
#endif
#ifdef WITH_EXPONENTS
operation_t JOIN(PREFIX, json);
#endif
#ifdef WITH_CHECK
operation_t JOIN(PREFIX, check);
#endif
#ifdef WITH_SORTED
operation_t JOIN(PREFIX, sorted);
#endif
#ifdef WITH_PART
size_t JOIN(PREFIX, part)(const unsigned char *path, size_t path_len, const unsigned char *text, size_t len,
                          size_t rounds);

/* The path of the document that comes next. */
static struct path { const unsigned char *text; size_t len; } part_path;

static size_t run_part(const unsigned char *text, size_t len, size_t rounds) {
  return JOIN(PREFIX, part)(part_path.text, part_path.len, text, len, rounds);
}
#endif
#ifdef WITH_STRAIGHT
operation_t JOIN(PREFIX, straight_text), JOIN(PREFIX, straight_key), JOIN(PREFIX, straight_extended);
#endif

/* An operation that does not only read still reads the text where there is no round at all. So its cost is what more
 * rounds cost than none. */
static const struct operation { const char *name; operation_t *run; int only_reads; const char *suffix; } operations[] = {
#ifndef WITHOUT_READ
  { "read", JOIN(PREFIX, read), 1, ".json" },
#endif
#ifdef WITH_EXTENDED
  { "extended", JOIN(PREFIX, read_extended), 1, ".json5" },
#endif
#ifdef WITH_REJECT
  { "reject", JOIN(PREFIX, reject), 1, ".rejected" },
#endif
#ifdef WITH_AST
  { "read_ast", JOIN(PREFIX, read_ast), 1, ".json" },
#endif
#ifdef WITH_STRAIGHT
  { "straight_text", JOIN(PREFIX, straight_text), 1, ".json" },
  { "straight_key", JOIN(PREFIX, straight_key), 1, ".json" },
  { "straight_extended", JOIN(PREFIX, straight_extended), 1, ".json5" },
#endif
#ifdef WITH_CHECK
  { "check", JOIN(PREFIX, check), 1, ".json" },
#endif
#ifdef WITH_SORTED
  { "sorted", JOIN(PREFIX, sorted), 1, ".json" },
#endif
#ifdef WITH_PART
  { "part", run_part, 1, ".paths" },
#endif
#ifdef WITH_READ_WRITE
  { "read_write", JOIN(PREFIX, read_write), 1, ".json" },
#else
  { "write", JOIN(PREFIX, write), 0, ".json" },
#endif
#ifdef WITH_LINES
  { "lines", JOIN(PREFIX, lines), 1, ".json" },
#endif
#ifdef WITH_SORT_KEY
  { "sort_key", JOIN(PREFIX, sort_key), 0, ".json" },
#endif
#ifdef WITH_EXPONENTS
  { "json", JOIN(PREFIX, json), 1, ".exponents" },
#endif
#ifndef WITHOUT_VALUES
  { "compare", JOIN(PREFIX, compare), 0, ".json" },
  { "clone", JOIN(PREFIX, clone), 0, ".json" },
#endif
};
#define OPERATIONS (sizeof operations / sizeof *operations)

struct document { const unsigned char *text; size_t len; };
struct file { const char *name; size_t bytes, count; struct document *documents, *paths; };

/* The lines of a file. */
static struct file load_lines(const char *path) {
  FILE *in = fopen(path, "rb");
  if (!in) { perror(path); exit(2); }
  fseek(in, 0, SEEK_END);
  size_t len = ftell(in);
  rewind(in);
  unsigned char *text = malloc(len);
  if (!text || fread(text, 1, len, in) != len) { perror(path); exit(2); }
  fclose(in);

  struct file file = { path, 0, 0, NULL, NULL };
  for (size_t i = 0; i < len; i++) file.count += text[i] == '\n';
  file.documents = malloc(file.count * sizeof *file.documents);
  unsigned char *at = text;
  for (size_t i = 0; i < file.count; i++) {
    unsigned char *end = memchr(at, '\n', text + len - at);
    file.documents[i] = (struct document){ at, end - at };
    file.bytes += end - at;
    at = end + 1;
  }
  return file;
}

/* The documents of a file, with the paths of their parts, where there are some. */
static struct file load(const char *path) {
  struct file file = load_lines(path);
  char name[4096];
  const char *point = strrchr(path, '.');
  int len = point ? (int)(point - path) : 0;
  if (len == 0 || snprintf(name, sizeof name, "%.*s.paths", len, path) >= (int)sizeof name || access(name, R_OK)) return file;
  struct file paths = load_lines(name);
  if (paths.count != file.count) {
    fprintf(stderr, "%s: not a path for each document\n", name);
    exit(2);
  }
  file.paths = paths.documents;
  return file;
}

/* Does the operation on each document in turn. An error would make the figures worthless, so it ends the run. */
static void pass(const struct file *file, operation_t *run, size_t rounds) {
#ifdef WITH_LINES
  /* All lines of the file are one text, which stands there with their line feeds. */
  if (run == JOIN(PREFIX, lines)) {
    if (run(file->documents->text, file->bytes + file->count, rounds) == rounds) return;
    fprintf(stderr, "%s: the lines went wrong\n", file->name);
    exit(1);
  }
#endif
  for (size_t i = 0; i < file->count; i++) {
#ifdef WITH_PART
    if (file->paths) part_path = (struct path){ file->paths[i].text, file->paths[i].len };
#endif
    if (run(file->documents[i].text, file->documents[i].len, rounds) != rounds) {
      fprintf(stderr, "%s: document %zu went wrong\n", file->name, i);
      exit(1);
    }
  }
}

static double now(void) {
  struct timespec t;
  clock_gettime(CLOCK_MONOTONIC, &t);
  return t.tv_sec * 1e9 + t.tv_nsec;
}

/* The least time of several passes: other work on the machine only ever adds to it. */
static double best(const struct file *file, operation_t *run, size_t rounds, double budget) {
  double least = 1e300, start = now();
  for (int n = 0; n < 3 || (n < 400 && now() - start < budget); n++) {
    double from = now();
    pass(file, run, rounds);
    double took = now() - from;
    if (took < least) least = took;
  }
  return least;
}

static const char *last_part(const char *path) {
  const char *slash = strrchr(path, '/');
  return slash ? slash + 1 : path;
}

static double processor_time(void) {
  struct timespec t;
  clock_gettime(CLOCK_PROCESS_CPUTIME_ID, &t);
  return t.tv_sec * 1e9 + t.tv_nsec;
}

static int by_size(const void *a, const void *b) {
  double x = *(const double *)a, y = *(const double *)b;
  return (x > y) - (x < y);
}

/* The median of the processor's time of a pass. The first two passes bring the heap to its size, and don't count. */
static double median(const struct file *file, operation_t *run, size_t rounds, double budget) {
  enum { MOST = 400 };
  double times[MOST], spent = 0;
  int count = 0;
  pass(file, run, rounds);
  pass(file, run, rounds);
  while (count < 5 || (count < MOST && spent < budget)) {
    double from = processor_time();
    pass(file, run, rounds);
    spent += times[count++] = processor_time() - from;
  }
  qsort(times, count, sizeof *times, by_size);
  return times[count / 2];
}

static long page_faults(void) {
  struct rusage usage;
  getrusage(RUSAGE_SELF, &usage);
  return usage.ru_minflt + usage.ru_majflt;
}

/* The operations that are timed beside another library's. */
static int is_timed(const struct operation *operation) {
  static const char *const names[] = { "read", "straight_text", "write", "compare", "clone" };
  for (size_t i = 0; i < sizeof names / sizeof *names; i++)
    if (!strcmp(operation->name, names[i])) return 1;
  return 0;
}

static void measure_processor(const struct file *file, const struct operation *operation, double budget) {
  size_t rounds = operation->only_reads ? 1 : 16;
  pass(file, operation->run, rounds);
  long faults = page_faults();
  double ns = median(file, operation->run, rounds, budget);
  if (!operation->only_reads) ns = (ns - median(file, operation->run, 0, budget)) / rounds;
  printf("%s\t%s\t%zu\t%.0f\t%ld\n", last_part(file->name), operation->name, file->bytes, ns, page_faults() - faults);
  fflush(stdout);
}

/* A counter of this process's own instructions outside the kernel, or -1 where the kernel or the machine has none. */
static int open_counter(void) {
  const char *refused = getenv("NO_COUNTER");
  if (refused && *refused) return -1;
  struct perf_event_attr attr;
  memset(&attr, 0, sizeof attr);
  attr.size = sizeof attr;
  attr.type = PERF_TYPE_HARDWARE;
  attr.config = PERF_COUNT_HW_INSTRUCTIONS;
  attr.disabled = 1;
  attr.exclude_kernel = 1;
  attr.exclude_hv = 1;
  return syscall(SYS_perf_event_open, &attr, 0, -1, -1, 0);
}

static double count(int counter, const struct file *file, operation_t *run, size_t rounds) {
  uint64_t instructions = 0;
  ioctl(counter, PERF_EVENT_IOC_RESET, 0);
  ioctl(counter, PERF_EVENT_IOC_ENABLE, 0);
  pass(file, run, rounds);
  ioctl(counter, PERF_EVENT_IOC_DISABLE, 0);
  if (read(counter, &instructions, sizeof instructions) != sizeof instructions) return -1;
  return instructions;
}

/* Whether the operation is of the file's kind. Standard documents are extended ones too, and may be looked through for
 * exponents. */
static int is_done(const struct operation *operation, const struct file *file) {
  const char *point = strrchr(file->name, '.');
  if (!strcmp(operation->suffix, ".paths")) return file->paths != NULL;
  return point && (!strcmp(point, operation->suffix) ||
                   (!strcmp(point, ".json") && strcmp(operation->suffix, ".rejected")));
}

static void measure(const struct file *file, const struct operation *operation, int counter, double budget) {
  operation_t *run = operation->run;
  int only_rounds = operation->only_reads;
  /* Many rounds, where reading is part of what is timed, so that its noise is a small part of the difference. */
  size_t rounds = only_rounds ? 1 : 16;
  double ns = best(file, run, rounds, budget);
  if (!only_rounds) ns = (ns - best(file, run, 0, budget)) / rounds;
  printf("%s\t%s\t%zu\t%.0f\t", last_part(file->name), operation->name, file->bytes, ns);
  if (counter >= 0)
    printf("%.0f\n", count(counter, file, run, 2) - count(counter, file, run, 1));
  else
    printf("-\n");
  fflush(stdout);
}

#ifdef WITH_MEMORY
extern size_t memory_live, memory_peak;

/* What reads the file's documents into values: the first operation of their kind. */
static operation_t *reader_of(const struct file *file) {
  for (size_t i = 0; i < OPERATIONS; i++)
    if (is_done(&operations[i], file)) return operations[i].run;
  fprintf(stderr, "%s: the library does not read this mode\n", file->name);
  exit(2);
}

static void measure_peak(const struct file *file, operation_t *run, const char *name) {
  size_t sum = 0;
  for (size_t i = 0; i < file->count; i++) {
    struct file one = { file->name, file->documents[i].len, 1, &file->documents[i], file->paths ? &file->paths[i] : NULL };
    size_t before = memory_peak = memory_live;
    pass(&one, run, 1);
    sum += memory_peak - before;
  }
  printf("%s\t%s\t%zu\t%zu\t-\n", last_part(file->name), name, file->bytes, sum);
}
#endif

int main(int argc, char **argv) {
  /* Without this the C library gives memory back to the kernel after each round, and page faults drown the rest. */
  mallopt(M_TRIM_THRESHOLD, 1 << 30);
  mallopt(M_MMAP_THRESHOLD, 1 << 30);
  mallopt(M_TOP_PAD, 64 << 20);

  if (argc == 5 && !strcmp(argv[1], "--pass")) {
    struct file file = load(argv[4]);
    for (size_t i = 0; i < OPERATIONS; i++)
      if (!strcmp(operations[i].name, argv[2])) {
        pass(&file, operations[i].run, strtoul(argv[3], NULL, 10));
        return 0;
      }
    return 2;
  }

  if (argc == 2 && !strcmp(argv[1], "--has-counter")) return open_counter() < 0;

#ifdef WITH_MEMORY
  if (argc > 1 && !strcmp(argv[1], "--peak")) {
    for (int i = 2; i < argc; i++) {
      struct file file = load(argv[i]);
      measure_peak(&file, reader_of(&file), "peak");
    }
    return 0;
  }
  if (argc > 3 && !strcmp(argv[1], "--peak-of")) {
    for (int i = 3; i < argc; i++) {
      struct file file = load(argv[i]);
      for (size_t which = 0; which < OPERATIONS; which++)
        if (!strcmp(operations[which].name, argv[2])) measure_peak(&file, operations[which].run, argv[2]);
    }
    return 0;
  }
#endif

  const char *ms = getenv("BUDGET_MS");
  double budget = (ms ? atof(ms) : 200) * 1e6;
  int timed = argc > 1 && !strcmp(argv[1], "--time");
  const char *only = argc > 3 && !strcmp(argv[1], "--time-of") ? argv[2] : NULL;
  int counter = timed || only ? -1 : open_counter();
  for (int i = only ? 3 : 1 + timed; i < argc; i++) {
    struct file file = load(argv[i]);
    for (size_t which = 0; which < OPERATIONS; which++) {
      const struct operation *operation = &operations[which];
      if (!is_done(operation, &file) || (timed && !is_timed(operation)) || (only && strcmp(operation->name, only))) continue;
      if (timed || only) measure_processor(&file, operation, budget);
      else measure(&file, operation, counter, budget);
    }
  }
  return 0;
}
