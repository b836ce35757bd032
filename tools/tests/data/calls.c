/* Loaded before a program by LD_PRELOAD: notes its calls of the system that look at, open, read, write, sync, lock, cut, name or remove a file, one
   a line, in the file NOTES, which has to exist. Of these calls the one with the number FAIL, counted from 1, fails with the number
   ERROR, and is not made, and so do those behind it, MANY in all; where ERROR is 0 they move half their bytes, where they move some. All
   four stand in the environment.

   A line has the call, its file's number (of a name -1), what it answers (of an error its number, below 0), and in hexadecimal the bytes of a write, the size of a cut,
   or the names; behind that of a file that is opened `c` where it is made if it is not there, and `t` where it is emptied.

   It includes no header, so that the kit's own clang builds it (x86-64 Linux, glibc). */
typedef unsigned long word;

extern void *dlsym(void *, const char *);
extern char *getenv(const char *);
extern word strtoul(const char *, char **, int);
extern int *__errno_location(void);

static int (*next_open)(const char *, int, ...);
static long (*next_read)(int, void *, word), (*next_write)(int, const void *, word), (*next_pread)(int, void *, word, long);
static int (*next_fsync)(int), (*next_fdatasync)(int), (*next_ftruncate)(int, long), (*next_flock)(int, int), (*next_close)(int);
static int (*next_rename)(const char *, const char *), (*next_unlink)(const char *);
static int (*next_statx)(int, const char *, int, unsigned, void *), (*next_fchmod)(int, unsigned), (*next_fchown)(int, unsigned, unsigned);
static char *(*next_realpath)(const char *, char *);
static int notes = -1;
static word calls, fail, many, error;

static void *next(const char *name) { return dlsym((void *)-1, name); }

static word number(const char *name) {
  const char *text = getenv(name);
  return text ? strtoul(text, 0, 10) : 0;
}

__attribute__((constructor)) static void begin(void) {
  next_open = (int (*)(const char *, int, ...))next("open");
  next_close = (int (*)(int))next("close");
  next_read = (long (*)(int, void *, word))next("read");
  next_write = (long (*)(int, const void *, word))next("write");
  next_pread = (long (*)(int, void *, word, long))next("pread");
  next_fsync = (int (*)(int))next("fsync");
  next_fdatasync = (int (*)(int))next("fdatasync");
  next_ftruncate = (int (*)(int, long))next("ftruncate");
  next_flock = (int (*)(int, int))next("flock");
  next_rename = (int (*)(const char *, const char *))next("rename");
  next_unlink = (int (*)(const char *))next("unlink");
  next_statx = (int (*)(int, const char *, int, unsigned, void *))next("statx");
  next_fchmod = (int (*)(int, unsigned))next("fchmod");
  next_fchown = (int (*)(int, unsigned, unsigned))next("fchown");
  next_realpath = (char *(*)(const char *, char *))next("realpath");
  const char *name = getenv("NOTES");
  notes = name ? next_open(name, 02001) : -1;
  fail = number("FAIL");
  many = number("MANY");
  error = number("ERROR");
}

static char *put(char *at, const char *text) {
  while (*text) *at++ = *text++;
  return at;
}

static char *put_number(char *at, long n) {
  char digits[24];
  int count = 0;
  if (n < 0) *at++ = '-', n = -n;
  do digits[count++] = '0' + n % 10; while (n /= 10);
  while (count) *at++ = digits[--count];
  return at;
}

static char *put_bytes(char *at, const char *bytes, word count) {
  for (word i = 0; i < count; i++) {
    *at++ = "0123456789abcdef"[bytes[i] >> 4 & 15];
    *at++ = "0123456789abcdef"[bytes[i] & 15];
  }
  return at;
}

static word length(const char *text) {
  word n = 0;
  while (text[n]) n++;
  return n;
}

/* Notes a call, and answers what it answered. */
static long noted(const char *call, long file, long answer, const char *bytes, word count, const char *more) {
  static char line[1 << 20];
  if (notes < 0 || count > sizeof line / 2 - 9000) return answer;
  int was = *__errno_location();
  char *at = put_number(put(put_number(put(put(line, call), " "), file), " "), answer < 0 ? -was : answer);
  at = put_bytes(put(at, " "), bytes, count);
  if (more) at = put_bytes(put(at, " "), more, length(more));
  *at++ = '\n';
  next_write(notes, line, at - line);
  *__errno_location() = was;
  return answer;
}

/* Whether this call is one that is to fail or to be short. */
static int is_chosen(void) {
  if (notes < 0) return 0;
  word call = __atomic_add_fetch(&calls, 1, __ATOMIC_SEQ_CST);
  return fail && call >= fail && call - fail < many;
}

/* Whether this call fails. */
static int fails(void) {
  if (!is_chosen() || !error) return 0;
  *__errno_location() = error;
  return 1;
}

int open(const char *name, int flags, int mode) {
  static const char *const hows[] = {0, "c", "t", "ct"};
  const char *how = hows[!!(flags & 0100) + 2 * !!(flags & 01000)];
  return noted("open", -1, fails() ? -1 : next_open(name, flags, mode), name, length(name), how);
}

int close(int file) { return noted("close", file, next_close(file), "", 0, 0); }

/* How many bytes of so many are moved, or -1. */
static long moved(word count) {
  if (!is_chosen()) return count;
  if (!error) return count > 1 ? count / 2 : count;
  *__errno_location() = error;
  return -1;
}

long read(int file, void *bytes, word count) {
  long most = moved(count);
  return noted("read", file, most < 0 ? -1 : next_read(file, bytes, most), "", 0, 0);
}

long write(int file, const void *bytes, word count) {
  long most = moved(count), answer = most < 0 ? -1 : next_write(file, bytes, most);
  return noted("write", file, answer, bytes, answer < 0 ? 0 : answer, 0);
}

long pread(int file, void *bytes, word count, long at) {
  long most = moved(count);
  return noted("pread", file, most < 0 ? -1 : next_pread(file, bytes, most, at), "", 0, 0);
}

int fsync(int file) { return noted("fsync", file, fails() ? -1 : next_fsync(file), "", 0, 0); }

int fdatasync(int file) { return noted("fdatasync", file, fails() ? -1 : next_fdatasync(file), "", 0, 0); }

int flock(int file, int how) { return noted("flock", file, fails() ? -1 : next_flock(file, how), "", 0, 0); }

int ftruncate(int file, long size) {
  char text[24];
  char *end = put_number(text, size);
  return noted("ftruncate", file, fails() ? -1 : next_ftruncate(file, size), text, end - text, 0);
}

int rename(const char *from, const char *to) {
  return noted("rename", -1, fails() ? -1 : next_rename(from, to), from, length(from), to);
}

int unlink(const char *name) { return noted("unlink", -1, fails() ? -1 : next_unlink(name), name, length(name), 0); }

int statx(int file, const char *name, int how, unsigned what, void *found) {
  return noted("statx", file, fails() ? -1 : next_statx(file, name, how, what, found), name, length(name), 0);
}

char *realpath(const char *name, char *found) {
  char *whole = fails() ? 0 : next_realpath(name, found);
  noted("realpath", -1, whole ? 0 : -1, name, length(name), 0);
  return whole;
}

int fchmod(int file, unsigned rights) { return noted("fchmod", file, fails() ? -1 : next_fchmod(file, rights), "", 0, 0); }

int fchown(int file, unsigned user, unsigned group) {
  return noted("fchown", file, fails() ? -1 : next_fchown(file, user, group), "", 0, 0);
}
