/* Stands between a program and the C library, where it is loaded before that one: notes the program's calls on files and on its
   standard streams, has some of them fail, moves folders and files while it runs, and disturbs its threads. By these words of the
   environment:

   SHIM_NOTES  a file: each call is noted there before it is made, as a line of its kind, the last part of the file's path, and what
               is done at it: `fails`, `short`, `moves` or `-`
   SHIM_KINDS  the kinds of calls that count, with commas; all where it isn't given. The kinds are open, look (stat and its like), read,
               write, sync, size (ftruncate and its like), lock and thread (the start of one), and memory (malloc and realloc), which
               counts only where it is given
   SHIM_NAMES  the files whose calls count: last parts of paths, with commas, `0`, `1` and `2` for the standard streams, and `.` for a
               folder; all where it isn't given. A name that ends with `*` is each that begins so
   SHIM_AT     which of the calls that count something is done at, from 1 on; at none where it isn't given
   SHIM_ON     where it is given, something is done at each call that counts from that one on
   SHIM_FAIL   a number of errno: the call fails with it and isn't made
   SHIM_SHORT  the call reads or writes the first half of its bytes, at least one
   SHIM_MOVES  pairs of paths, a line each: what stands at the first is moved to the second, one pair after the other; then the call
               is made
   SHIM_NEXT   such pairs, which are moved at the next call that counts
   SHIM_NOISE  a number above 0, of which other noise comes for another number: at some of these calls, of those that ask for memory or
               give it back, of those that give the processor away, and of those that wait for another thread, the thread gives the
               processor away or sleeps for up to 200 microseconds; and some waits end at once, as if by a signal

   Nothing is done where two calls of one thread are nested. */
#define _GNU_SOURCE
#include <dlfcn.h>
#include <errno.h>
#include <fcntl.h>
#include <pthread.h>
#include <sched.h>
#include <stdint.h>
#include <stdarg.h>
#include <stdio.h>
#include <stdlib.h>
#include <string.h>
#include <linux/futex.h>
#include <sys/file.h>
#include <sys/stat.h>
#include <sys/syscall.h>
#include <sys/uio.h>
#include <time.h>
#include <unistd.h>

#define FILES 1024
#define NAME 64
#define REAL(name) ((__typeof__(&name))dlsym(RTLD_NEXT, #name))

enum deed { GO_ON, FAILS, IS_SHORT };

static char names[FILES][NAME];
static pthread_mutex_t one_at_a_time = PTHREAD_MUTEX_INITIALIZER;
static long counted;
static int notes = -1;
static const char *kinds_wanted, *names_wanted, *moves, *next_moves;
static long at, fails;
static int from_there_on, is_short, counts_memory;
static uint64_t noise;
static __thread int within;
static __thread uint64_t drawn;

void *__libc_malloc(size_t size);
void *__libc_realloc(void *held, size_t size);
void __libc_free(void *held);

static long number(const char *word) {
  const char *text = getenv(word);
  return text ? atol(text) : 0;
}

/* A number below this one; others for other threads and other noise. */
static uint64_t draw(uint64_t below) {
  if (drawn == 0) drawn = noise * 0x9e3779b97f4a7c15u + (uint64_t)(uintptr_t)&drawn;
  drawn = drawn * 6364136223846793005u + 1442695040888963407u;
  return (drawn >> 33) % below;
}

/* Gives the processor away or sleeps a while, at one of so many calls. */
static void disturb(uint64_t of) {
  int before = errno;
  if (noise == 0 || draw(of) != 0) return;
  if (draw(2) == 0) {
    syscall(SYS_sched_yield);
  } else {
    struct timespec nap = {0, (long)draw(200) * 1000};
    syscall(SYS_nanosleep, &nap, NULL);
  }
  errno = before;
}

/* Whether a word is one of these, with commas between them. */
static int is_among(const char *word, const char *words) {
  size_t length = strlen(word);
  for (const char *from = words; from;) {
    const char *comma = strchr(from, ',');
    size_t size = comma ? (size_t)(comma - from) : strlen(from);
    if (size > 0 && from[size - 1] == '*' ? strncmp(word, from, size - 1) == 0 : size == length && strncmp(word, from, size) == 0) return 1;
    from = comma ? comma + 1 : NULL;
  }
  return 0;
}

__attribute__((constructor)) static void begin(void) {
  const char *path = getenv("SHIM_NOTES");
  kinds_wanted = getenv("SHIM_KINDS");
  names_wanted = getenv("SHIM_NAMES");
  moves = getenv("SHIM_MOVES");
  next_moves = getenv("SHIM_NEXT");
  at = number("SHIM_AT");
  fails = number("SHIM_FAIL");
  from_there_on = getenv("SHIM_ON") != NULL;
  is_short = getenv("SHIM_SHORT") != NULL;
  counts_memory = kinds_wanted != NULL && is_among("memory", kinds_wanted);
  noise = (uint64_t)number("SHIM_NOISE");
  if (path) {
    /* A number that the program wouldn't get, and none of the standard streams' where one of these is closed. */
    int low = (int)syscall(SYS_openat, AT_FDCWD, path, O_WRONLY | O_CREAT | O_APPEND, 0666);
    if (low >= 0) {
      notes = (int)syscall(SYS_fcntl, low, F_DUPFD_CLOEXEC, 700);
      syscall(SYS_close, low);
    }
  }
  /* What the program starts has no shim. */
  unsetenv("LD_PRELOAD");
}

static const char *last_part(const char *path) {
  const char *slash = path ? strrchr(path, '/') : NULL;
  return slash ? slash + 1 : path ? path : "";
}

static const char *name_of(int file) {
  static const char *streams[] = {"0", "1", "2"};
  if (file < 0 || file >= FILES) return "";
  return names[file][0] ? names[file] : file < 3 ? streams[file] : "";
}

static void move_all(const char *lines) {
  char *pairs = strdup(lines), *rest = pairs;
  for (char *from; (from = strsep(&rest, "\n")) && *from;) {
    char *to = strsep(&rest, "\n");
    if (!to || rename(from, to) != 0) abort();
  }
  free(pairs);
}

/* What becomes of a call of this kind on a file of this name. */
static enum deed deed_of(const char *kind, const char *name) {
  enum deed deed = GO_ON;
  const char *done = "-";
  int before = errno;
  if (within) return GO_ON;
  disturb(8);
  within = 1;
  pthread_mutex_lock(&one_at_a_time);
  if ((!kinds_wanted || is_among(kind, kinds_wanted)) && (!names_wanted || is_among(name, names_wanted))) {
    counted += 1;
    if (at > 0 && (counted == at || (from_there_on && counted > at))) {
      if (moves) move_all(moves);
      deed = fails ? FAILS : is_short ? IS_SHORT : GO_ON;
      done = fails ? "fails" : is_short ? "short" : moves ? "moves" : "-";
    }
    if (at > 0 && counted == at + 1 && next_moves) move_all(next_moves);
  }
  if (notes >= 0) {
    char line[NAME + 48];
    int length = snprintf(line, sizeof line, "%s %.63s %s\n", kind, *name ? name : "?", done);
    if (length > 0) (void)!syscall(SYS_write, notes, line, (size_t)length);
  }
  pthread_mutex_unlock(&one_at_a_time);
  within = 0;
  errno = deed == FAILS ? (int)fails : before;
  return deed;
}

static size_t part(enum deed deed, size_t count) { return deed == IS_SHORT && count > 1 ? count / 2 : count; }

static int opened(int file, const char *path) {
  if (file >= 0 && file < FILES) snprintf(names[file], NAME, "%.63s", last_part(path));
  return file;
}

#define FAIL_OR(kind, name) if (deed_of(kind, name) == FAILS) return -1
#define MODE_OF(flags) \
  mode_t mode = 0; \
  if ((flags) & O_CREAT || ((flags) & O_TMPFILE) == O_TMPFILE) { va_list more; va_start(more, flags); mode = va_arg(more, mode_t); va_end(more); }

int open(const char *path, int flags, ...) { MODE_OF(flags) FAIL_OR("open", last_part(path)); return opened(REAL(open)(path, flags, mode), path); }
int open64(const char *path, int flags, ...) { MODE_OF(flags) FAIL_OR("open", last_part(path)); return opened(REAL(open64)(path, flags, mode), path); }
int openat(int folder, const char *path, int flags, ...) { MODE_OF(flags) FAIL_OR("open", last_part(path)); return opened(REAL(openat)(folder, path, flags, mode), path); }
int openat64(int folder, const char *path, int flags, ...) { MODE_OF(flags) FAIL_OR("open", last_part(path)); return opened(REAL(openat64)(folder, path, flags, mode), path); }

int close(int file) {
  if (file >= 0 && file < FILES) names[file][0] = 0;
  return REAL(close)(file);
}

void *malloc(size_t size) {
  disturb(256);
  return counts_memory && deed_of("memory", "") == FAILS ? NULL : __libc_malloc(size);
}

void *realloc(void *held, size_t size) {
  disturb(256);
  return counts_memory && deed_of("memory", "") == FAILS ? NULL : __libc_realloc(held, size);
}

void free(void *held) {
  disturb(256);
  __libc_free(held);
}

int sched_yield(void) {
  disturb(8);
  return (int)syscall(SYS_sched_yield);
}

long syscall(long which, ...) {
  static long (*real)(long, ...);
  long given[6];
  va_list more;
  va_start(more, which);
  for (int at = 0; at < 6; at++) given[at] = va_arg(more, long);
  va_end(more);
  if (which == SYS_futex && noise) {
    disturb(2);
    if ((given[1] & FUTEX_CMD_MASK) == FUTEX_WAIT && draw(8) == 0) {
      errno = EINTR;
      return -1;
    }
  }
  if (!real) real = REAL(syscall);
  return real(which, given[0], given[1], given[2], given[3], given[4], given[5]);
}

ssize_t read(int file, void *into, size_t count) { enum deed deed = deed_of("read", name_of(file)); return deed == FAILS ? -1 : REAL(read)(file, into, part(deed, count)); }
ssize_t pread(int file, void *into, size_t count, off_t from) { enum deed deed = deed_of("read", name_of(file)); return deed == FAILS ? -1 : REAL(pread)(file, into, part(deed, count), from); }
ssize_t pread64(int file, void *into, size_t count, off64_t from) { enum deed deed = deed_of("read", name_of(file)); return deed == FAILS ? -1 : REAL(pread64)(file, into, part(deed, count), from); }
ssize_t write(int file, const void *bytes, size_t count) { enum deed deed = deed_of("write", name_of(file)); return deed == FAILS ? -1 : REAL(write)(file, bytes, part(deed, count)); }
ssize_t pwrite(int file, const void *bytes, size_t count, off_t from) { enum deed deed = deed_of("write", name_of(file)); return deed == FAILS ? -1 : REAL(pwrite)(file, bytes, part(deed, count), from); }
ssize_t pwrite64(int file, const void *bytes, size_t count, off64_t from) { enum deed deed = deed_of("write", name_of(file)); return deed == FAILS ? -1 : REAL(pwrite64)(file, bytes, part(deed, count), from); }
ssize_t readv(int file, const struct iovec *parts, int count) { FAIL_OR("read", name_of(file)); return REAL(readv)(file, parts, count); }
ssize_t writev(int file, const struct iovec *parts, int count) { FAIL_OR("write", name_of(file)); return REAL(writev)(file, parts, count); }

int fsync(int file) { FAIL_OR("sync", name_of(file)); return REAL(fsync)(file); }
int fdatasync(int file) { FAIL_OR("sync", name_of(file)); return REAL(fdatasync)(file); }
int syncfs(int file) { FAIL_OR("sync", name_of(file)); return REAL(syncfs)(file); }

int ftruncate(int file, off_t size) { FAIL_OR("size", name_of(file)); return REAL(ftruncate)(file, size); }
int ftruncate64(int file, off64_t size) { FAIL_OR("size", name_of(file)); return REAL(ftruncate64)(file, size); }
int fallocate(int file, int how, off_t from, off_t size) { FAIL_OR("size", name_of(file)); return REAL(fallocate)(file, how, from, size); }
int fallocate64(int file, int how, off64_t from, off64_t size) { FAIL_OR("size", name_of(file)); return REAL(fallocate64)(file, how, from, size); }
int posix_fallocate(int file, off_t from, off_t size) { return deed_of("size", name_of(file)) == FAILS ? errno : REAL(posix_fallocate)(file, from, size); }
int posix_fallocate64(int file, off64_t from, off64_t size) { return deed_of("size", name_of(file)) == FAILS ? errno : REAL(posix_fallocate64)(file, from, size); }

int pthread_create(pthread_t *thread, const pthread_attr_t *how, void *(*begins)(void *), void *with) {
  return deed_of("thread", "") == FAILS ? errno : REAL(pthread_create)(thread, how, begins, with);
}

int flock(int file, int how) { FAIL_OR("lock", name_of(file)); return REAL(flock)(file, how); }

int stat(const char *path, struct stat *found) { FAIL_OR("look", last_part(path)); return REAL(stat)(path, found); }
int stat64(const char *path, struct stat64 *found) { FAIL_OR("look", last_part(path)); return REAL(stat64)(path, found); }
int lstat(const char *path, struct stat *found) { FAIL_OR("look", last_part(path)); return REAL(lstat)(path, found); }
int lstat64(const char *path, struct stat64 *found) { FAIL_OR("look", last_part(path)); return REAL(lstat64)(path, found); }
int fstat(int file, struct stat *found) { FAIL_OR("look", name_of(file)); return REAL(fstat)(file, found); }
int fstat64(int file, struct stat64 *found) { FAIL_OR("look", name_of(file)); return REAL(fstat64)(file, found); }

int fstatat(int folder, const char *path, struct stat *found, int flags) {
  FAIL_OR("look", *path ? last_part(path) : name_of(folder));
  return REAL(fstatat)(folder, path, found, flags);
}

int fstatat64(int folder, const char *path, struct stat64 *found, int flags) {
  FAIL_OR("look", *path ? last_part(path) : name_of(folder));
  return REAL(fstatat64)(folder, path, found, flags);
}

int statx(int folder, const char *restrict path, int flags, unsigned int mask, struct statx *restrict found) {
  FAIL_OR("look", *path ? last_part(path) : name_of(folder));
  return REAL(statx)(folder, path, flags, mask, found);
}
