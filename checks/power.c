/* A disk that loses what wasn't synced, in front of the C library (LD_PRELOAD), for checks/power.

   It notes what the program writes to desk.journal2 and to desk.journal, and keeps what is safe of each apart from it:
   the bytes, the length, and whether the name is. The file itself holds what reads give. As on Linux a sync that fails
   leaves what was written since the sync before as clean: the next one succeeds and writes nothing of it, unless it was
   written again, while reads go on to give it, until the system forgets what it has in memory (POSIX_FADV_DONTNEED). A
   length that was changed stays unwritten until a sync succeeds. A name that was made or removed is safe once its
   folder was synced; a sync of the folder that fails leaves both names as clean, too.

   The environment says which syncs of the process fail, the first one being 1 (POWER_FAILS, as 5,6), which write fails
   once half of it is written (POWER_SPOILS), before which write, cut or sync the process ends (POWER_ENDS), how many
   bytes are clean or not together (POWER_GRAIN), whether what a failed sync leaves is forgotten at once
   (POWER_FORGETS), and the file in which all this is kept, from one process to the next (POWER_STATE). Calls are
   counted of both files together. */
#define _GNU_SOURCE
#include <dlfcn.h>
#include <errno.h>
#include <fcntl.h>
#include <stdarg.h>
#include <stdio.h>
#include <stdlib.h>
#include <string.h>
#include <sys/mman.h>
#include <sys/stat.h>
#include <unistd.h>

#define CAPACITY (1L << 18)
#define DESCRIPTORS 1024
#define FOLDER 3
#define BOTH 2
static const char *const NAMES[BOTH] = {"desk.journal2", "desk.journal"};

/* What is kept of one of the two files. */
struct safety {
  long begun;        /* whether the rest is set */
  long length;       /* of what is safe */
  long cut;          /* the least length that the file was cut to since the last sync that succeeded, or CAPACITY */
  long named;        /* whether the name is safe */
  long is_unnamed;   /* whether the name was made or removed since the folder was synced */
};

/* What is kept from one process to the next; checks/losing.py reads it, in this layout. */
struct kept {
  long syncs;        /* so many were asked for, by all processes */
  long writes;       /* so many writes and cuts were noted */
  long drops;        /* so often was the system to forget a file */
  struct safety of[BOTH];
  char more[4096 - (3 + 5 * BOTH) * sizeof(long)];
  unsigned char safe[BOTH][CAPACITY];
  unsigned char unsafe[BOTH][CAPACITY]; /* 1 where a byte was written since, and isn't clean */
};

static struct kept *kept;
static char kinds[DESCRIPTORS]; /* 1 and 2 for the two files, FOLDER for their folder, 0 for any other */
static long synced, wrote, called, grain, forgets;
static int (*real_open)(const char *, int, ...);
static ssize_t (*real_pwrite)(int, const void *, size_t, off_t);
static ssize_t (*real_write)(int, const void *, size_t);
static int (*real_ftruncate)(int, off_t);
static int (*real_close)(int);
static int (*real_unlink)(const char *);
static unsigned char seen[CAPACITY];

static long number(const char *name, long otherwise) {
  const char *text = getenv(name);
  return text ? atol(text) : otherwise;
}

__attribute__((constructor)) static void begin(void) {
  real_open = dlsym(RTLD_NEXT, "open");
  real_pwrite = dlsym(RTLD_NEXT, "pwrite");
  real_write = dlsym(RTLD_NEXT, "write");
  real_ftruncate = dlsym(RTLD_NEXT, "ftruncate");
  real_close = dlsym(RTLD_NEXT, "close");
  real_unlink = dlsym(RTLD_NEXT, "unlink");
  grain = number("POWER_GRAIN", 1);
  forgets = number("POWER_FORGETS", 0);
  int file = real_open(getenv("POWER_STATE"), O_RDWR);
  if (file < 0 || ftruncate(file, sizeof *kept) != 0) abort();
  kept = mmap(0, sizeof *kept, PROT_READ | PROT_WRITE, MAP_SHARED, file, 0);
  if (kept == MAP_FAILED) abort();
  real_close(file);
}

static int kind_of(int file) { return file >= 0 && file < DESCRIPTORS ? kinds[file] : 0; }

/* Which of the two files is open so, or -1. */
static int which(int file) {
  int kind = kind_of(file);
  return kind == FOLDER ? -1 : kind - 1;
}

/* Which of the two has this name, or -1. */
static int named(const char *path) {
  const char *last = strrchr(path, '/');
  for (int it = 0; it < BOTH; it++)
    if (strcmp(last ? last + 1 : path, NAMES[it]) == 0) return it;
  return -1;
}

static long length_of(int file) {
  struct stat it;
  if (fstat(file, &it) != 0 || it.st_size > CAPACITY) abort();
  return it.st_size;
}

/* What reads give of the whole file, into `seen`. */
static long read_all(int file) {
  long length = length_of(file);
  if (pread(file, seen, length, 0) != length) abort();
  return length;
}

/* What is there when a file is opened for the first time is safe. A file that is made has nothing that is. */
static void begin_file(int file, int it, int was_there) {
  struct safety *of = &kept->of[it];
  if (was_there && of->begun) return;
  memset(kept->safe[it], 0, CAPACITY);
  memset(kept->unsafe[it], 0, CAPACITY);
  of->length = was_there ? length_of(file) : 0;
  of->cut = CAPACITY;
  if (!of->begun) of->named = was_there;
  if (!was_there) of->is_unnamed = 1;
  if (pread(file, kept->safe[it], of->length, 0) != of->length) abort();
  /* the last, since the process may be killed at any moment */
  of->begun = 1;
}

static int opened(const char *path, int flags, mode_t mode) {
  int it = named(path);
  int was_there = it >= 0 && access(path, F_OK) == 0;
  int file = real_open(path, flags, mode);
  if (file < 0 || file >= DESCRIPTORS) return file;
  kinds[file] = it >= 0 ? it + 1 : strcmp(path, ".") == 0 ? FOLDER : 0;
  if (it >= 0) {
    begin_file(file, it, was_there);
    if (flags & O_TRUNC) kept->of[it].cut = 0;
  }
  return file;
}

int open(const char *path, int flags, ...) {
  va_list rest;
  va_start(rest, flags);
  mode_t mode = flags & O_CREAT ? va_arg(rest, mode_t) : 0;
  va_end(rest);
  return opened(path, flags, mode);
}
int open64(const char *path, int flags, ...) __attribute__((alias("open")));

int close(int file) {
  if (file >= 0 && file < DESCRIPTORS) kinds[file] = 0;
  return real_close(file);
}

int unlinkat(int folder, const char *path, int flags) {
  int (*real)(int, const char *, int) = dlsym(RTLD_NEXT, "unlinkat");
  int answer = real(folder, path, flags);
  if (answer == 0 && named(path) >= 0) kept->of[named(path)].is_unnamed = 1;
  return answer;
}

int unlink(const char *path) {
  int answer = real_unlink(path);
  if (answer == 0 && named(path) >= 0) kept->of[named(path)].is_unnamed = 1;
  return answer;
}

/* Before each write, each cut and each sync. */
static void may_end(void) {
  if (++called == number("POWER_ENDS", 0)) _exit(9);
}

/* How much of a write is written, and whether it fails then. */
static size_t written(size_t count, int *failed) {
  may_end();
  *failed = ++wrote == number("POWER_SPOILS", 0);
  return *failed ? count / 2 : count;
}

/* The bytes from the file's end before the write to the end of the write are not safe, in whole grains. */
static void note(int it, long before, long at, long count) {
  if (count <= 0) return;
  if (at + count > CAPACITY) abort();
  long first = (before < at ? before : at) / grain * grain, end = (at + count + grain - 1) / grain * grain;
  memset(kept->unsafe[it] + first, 1, (end < CAPACITY ? end : CAPACITY) - first);
  kept->writes++;
}

ssize_t pwrite(int file, const void *bytes, size_t count, off_t at) {
  int it = which(file);
  if (it < 0) return real_pwrite(file, bytes, count, at);
  long before = length_of(file);
  int failed;
  ssize_t done = real_pwrite(file, bytes, written(count, &failed), at);
  note(it, before, at, done);
  if (failed) errno = EIO;
  return failed ? -1 : done;
}
ssize_t pwrite64(int file, const void *bytes, size_t count, off_t at) { return pwrite(file, bytes, count, at); }

ssize_t write(int file, const void *bytes, size_t count) {
  int it = which(file);
  if (it < 0) return real_write(file, bytes, count);
  long before = length_of(file), at = lseek(file, 0, SEEK_CUR);
  int failed;
  ssize_t done = real_write(file, bytes, written(count, &failed));
  note(it, before, at, done);
  if (failed) errno = EIO;
  return failed ? -1 : done;
}

int ftruncate(int file, off_t length) {
  int it = which(file);
  if (it < 0) return real_ftruncate(file, length);
  may_end();
  int answer = real_ftruncate(file, length);
  if (answer == 0 && length < kept->of[it].cut) kept->of[it].cut = length;
  kept->writes++;
  return answer;
}
int ftruncate64(int file, off_t length) { return ftruncate(file, length); }

/* Gives the file what is safe, wherever it is clean. */
static void forget(int file, int it) {
  long length = read_all(file);
  for (long at = 0; at < length; at++)
    if (!kept->unsafe[it][at]) seen[at] = at < kept->of[it].cut ? kept->safe[it][at] : 0;
  if (real_pwrite(file, seen, length, 0) != length) abort();
}

static int fails(void) {
  const char *text = getenv("POWER_FAILS");
  may_end();
  synced++;
  kept->syncs++;
  for (; text && *text; text = strchr(text, ',') ? strchr(text, ',') + 1 : "")
    if (atol(text) == synced) return 1;
  return 0;
}

static int sync_folder(void) {
  int failed = fails();
  for (int it = 0; it < BOTH; it++) {
    struct safety *of = &kept->of[it];
    if (!failed && of->is_unnamed) of->named = access(NAMES[it], F_OK) == 0;
    of->is_unnamed = 0;
  }
  if (failed) errno = EIO;
  return failed ? -1 : 0;
}

static int sync_file(int file, int it) {
  struct safety *of = &kept->of[it];
  unsigned char *safe = kept->safe[it], *unsafe = kept->unsafe[it];
  long length = read_all(file);
  if (fails()) {
    memset(unsafe, 0, CAPACITY);
    if (forgets) forget(file, it);
    errno = EIO;
    return -1;
  }
  if (of->cut < of->length) memset(safe + of->cut, 0, of->length - of->cut);
  of->cut = CAPACITY;
  of->length = length;
  for (long at = 0; at < length; at++)
    if (unsafe[at]) safe[at] = seen[at];
  memset(unsafe, 0, CAPACITY);
  return 0;
}

int fsync(int file) {
  if (kind_of(file) == FOLDER) return sync_folder();
  if (which(file) >= 0) return sync_file(file, which(file));
  int (*real)(int) = dlsym(RTLD_NEXT, "fsync");
  return real(file);
}
int fdatasync(int file) { return fsync(file); }

int posix_fadvise(int file, off_t from, off_t length, int advice) {
  if (which(file) < 0 || advice != POSIX_FADV_DONTNEED || from != 0 || length != 0) return 0;
  kept->drops++;
  forget(file, which(file));
  return 0;
}
int posix_fadvise64(int file, off_t from, off_t length, int advice) {
  return posix_fadvise(file, from, length, advice);
}
