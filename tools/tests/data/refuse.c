/* Loaded before a program by LD_PRELOAD: of its requests for memory those from number FIRST to number LAST, counted from 1,
   are refused (both from the environment). The file COUNT, which has to exist and to have sixteen bytes, is left with the
   number of its requests and that of the blocks that it was given and has not freed, eight bytes each: a program of Rattle's
   ends by _exit, so nothing could be reported at its end.

   It includes no header, so that the kit's own clang builds it (x86-64 Linux, glibc). */
typedef unsigned long word;

struct segment { unsigned type, flags; word offset, at, physical, in_file, in_memory, align; };
struct object { word base; const char *name; const struct segment *segments; unsigned short count; };

extern void *dlsym(void *, const char *);
extern int dl_iterate_phdr(int (*)(struct object *, word, void *), void *);
extern char *getenv(const char *);
extern word strtoul(const char *, char **, int);
extern int open(const char *, int, ...);
extern int close(int);
extern void *mmap(void *, word, int, int, int, long);

static void *(*next_malloc)(word);
static void *(*next_realloc)(void *, word);
static void (*next_free)(void *);
static word nowhere[2], *counts = nowhere, first, last, low = ~0ul, high;

/* The program itself comes first: its own requests count, those that the C library makes for itself do not. */
static int find_program(struct object *program, word size, void *unused) {
  for (int i = 0; i < program->count; i++) {
    const struct segment *s = &program->segments[i];
    if (s->type != 1) continue;
    word from = program->base + s->at, to = from + s->in_memory;
    if (from < low) low = from;
    if (to > high) high = to;
  }
  return 1;
}

static word number(const char *name) {
  const char *text = getenv(name);
  return text ? strtoul(text, 0, 10) : 0;
}

__attribute__((constructor)) static void begin(void) {
  const char *name = getenv("COUNT");
  int file = name ? open(name, 2) : -1;
  if (file >= 0) {
    void *at = mmap(0, sizeof nowhere, 3, 1, file, 0);
    if (at != (void *)-1) counts = at;
    close(file);
  }
  first = number("FIRST");
  last = number("LAST");
  dl_iterate_phdr(find_program, 0);
}

static int is_of_program(void *caller) { return low <= (word)caller && (word)caller < high; }

static int is_refused(void *caller) {
  if (!is_of_program(caller)) return 0;
  word request = __atomic_add_fetch(&counts[0], 1, __ATOMIC_SEQ_CST);
  return first <= request && request <= last;
}

/* Counts a block that the program was given. */
static void *given(void *block, void *caller) {
  if (block && is_of_program(caller)) __atomic_add_fetch(&counts[1], 1, __ATOMIC_SEQ_CST);
  return block;
}

void *malloc(word size) {
  void *caller = __builtin_return_address(0);
  if (!next_malloc) next_malloc = (void *(*)(word))dlsym((void *)-1, "malloc");
  return is_refused(caller) ? 0 : given(next_malloc(size), caller);
}

void *realloc(void *at, word size) {
  void *caller = __builtin_return_address(0);
  if (!next_realloc) next_realloc = (void *(*)(void *, word))dlsym((void *)-1, "realloc");
  if (is_refused(caller)) return 0;
  void *block = next_realloc(at, size);
  return at ? block : given(block, caller);
}

void free(void *at) {
  if (!next_free) next_free = (void (*)(void *))dlsym((void *)-1, "free");
  if (at && is_of_program(__builtin_return_address(0))) __atomic_sub_fetch(&counts[1], 1, __ATOMIC_SEQ_CST);
  next_free(at);
}
