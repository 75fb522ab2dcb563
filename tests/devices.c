// A library to preload: it refuses memory, lets reads and writes fail or fall short, and sets the clock of a program, as the environment says.
//   cc -shared -fPIC -O1 -o devices.so tests/devices.c && FAIL_ALLOC=7 LD_PRELOAD=./devices.so tsdb replay
//   FAIL_ALLOC=N                the Nth allocation is refused
//   MOST_BYTES=N                allocations are refused while more than N bytes would be in use
//   FAIL_READ=N, FAIL_WRITE=N   the Nth read or write fails
//   ZERO_WRITE=N                the Nth write takes no byte
//   SHORT_READ=N, SHORT_WRITE=N each read or write takes at most N bytes
//   FAIL_FILE_READ=N ..         the same of files: FAIL_FILE_WRITE, ZERO_FILE_WRITE, SHORT_FILE_READ, SHORT_FILE_WRITE
//   FAIL_SYNC=N, FAIL_RENAME=N  the Nth flush of a file or folder fails, or the Nth change of a name
//   FAIL_RANDOM=N               the Nth request for random bytes fails
//   MOMENT=FILE                 the clock shows the number in the file, in nanoseconds of the Unix epoch
//   REPORT=FILE                 gets the number of allocations, reads and writes at the end of the program, the size of the refused
//                               allocation, and the number of reads before it
// Reads are those of standard input and of connections, writes those to standard output and to connections. Files are counted by themselves.
#define _GNU_SOURCE
#include <errno.h>
#include <fcntl.h>
#include <malloc.h>
#include <stddef.h>
#include <stdio.h>
#include <stdlib.h>
#include <sys/socket.h>
#include <sys/syscall.h>
#include <time.h>
#include <unistd.h>

extern void *__libc_malloc(size_t);
extern void *__libc_calloc(size_t, size_t);
extern void *__libc_realloc(void *, size_t);
extern void *__libc_memalign(size_t, size_t);
extern void __libc_free(void *);

static long allocations, bytes, reads, writes, file_reads, file_writes, refused_size, reads_before;

// Returns the number in a variable of the environment, -1 if it isn't there.
static long number(const char *name) {
  const char *text = getenv(name);
  return text ? atol(text) : -1;
}

// Returns whether an allocation of a size is refused, in place of an old block if there is one.
static int is_refused(size_t size, void *old) {
  static long refused, most;
  if (refused == 0) {
    refused = number("FAIL_ALLOC");
    most = number("MOST_BYTES");
  }
  if (most > 0 && bytes - (long)malloc_usable_size(old) + (long)size > most) {
    errno = ENOMEM;
    return 1;
  }
  if (++allocations != refused) return 0;
  refused_size = size;
  reads_before = reads;
  errno = ENOMEM;
  return 1;
}

// Counts a block that is in use from now on.
static void *counted(void *block) {
  bytes += malloc_usable_size(block);
  return block;
}

void free(void *block) {
  bytes -= malloc_usable_size(block);
  __libc_free(block);
}

void *malloc(size_t size) { return is_refused(size, NULL) ? NULL : counted(__libc_malloc(size)); }
void *calloc(size_t count, size_t size) { return is_refused(count * size, NULL) ? NULL : counted(__libc_calloc(count, size)); }
void *memalign(size_t align, size_t size) { return is_refused(size, NULL) ? NULL : counted(__libc_memalign(align, size)); }
void *realloc(void *old, size_t size) {
  long before = malloc_usable_size(old);
  void *block = is_refused(size, old) ? NULL : __libc_realloc(old, size);
  if (!block) return NULL;
  bytes -= before;
  return counted(block);
}
void *aligned_alloc(size_t align, size_t size) { return memalign(align, size); }
int posix_memalign(void **place, size_t align, size_t size) {
  void *block = memalign(align, size);
  if (block) *place = block;
  return block ? 0 : ENOMEM;
}

// Returns how many bytes the next read takes of a size, -1 if it fails. These are the variables of its kind, and how many came before.
static ssize_t read_size(size_t size, const char *fails, const char *is_short, long *before) {
  long most = number(is_short);
  if (++*before == number(fails)) {
    errno = EIO;
    return -1;
  }
  return most > 0 && (size_t)most < size ? most : (ssize_t)size;
}

static ssize_t write_size(size_t size, const char *fails, const char *is_zero, const char *is_short, long *before) {
  long most = number(is_short);
  if (++*before == number(fails)) {
    errno = EIO;
    return -1;
  }
  if (*before == number(is_zero)) return 0;
  return most > 0 && (size_t)most < size ? most : (ssize_t)size;
}

static ssize_t stream_read_size(size_t size) { return read_size(size, "FAIL_READ", "SHORT_READ", &reads); }
static ssize_t stream_write_size(size_t size) { return write_size(size, "FAIL_WRITE", "ZERO_WRITE", "SHORT_WRITE", &writes); }
static ssize_t file_read_size(size_t size) { return read_size(size, "FAIL_FILE_READ", "SHORT_FILE_READ", &file_reads); }
static ssize_t file_write_size(size_t size) {
  return write_size(size, "FAIL_FILE_WRITE", "ZERO_FILE_WRITE", "SHORT_FILE_WRITE", &file_writes);
}

ssize_t read(int file, void *room, size_t size) {
  ssize_t taken = file == 0 ? stream_read_size(size) : file_read_size(size);
  return taken < 0 ? -1 : syscall(SYS_read, file, room, taken);
}

ssize_t recv(int file, void *room, size_t size, int flags) {
  ssize_t taken = stream_read_size(size);
  return taken < 0 ? -1 : syscall(SYS_recvfrom, file, room, taken, flags, NULL, NULL);
}

ssize_t write(int file, const void *bytes, size_t size) {
  ssize_t taken = file == 1 ? stream_write_size(size) : file == 2 ? (ssize_t)size : file_write_size(size);
  return taken <= 0 && size > 0 ? taken : syscall(SYS_write, file, bytes, taken);
}

ssize_t send(int file, const void *bytes, size_t size, int flags) {
  ssize_t taken = stream_write_size(size);
  return taken <= 0 && size > 0 ? taken : syscall(SYS_sendto, file, bytes, taken, flags, NULL, 0);
}

// Returns whether the next call of a kind fails. These are its variable, and how many came before.
static int is_failed(const char *fails, long *before) {
  if (++*before != number(fails)) return 0;
  errno = EIO;
  return 1;
}

int fsync(int file) {
  static long before;
  return is_failed("FAIL_SYNC", &before) ? -1 : syscall(SYS_fsync, file);
}

int rename(const char *from, const char *to) {
  static long before;
  return is_failed("FAIL_RENAME", &before) ? -1 : syscall(SYS_rename, from, to);
}

int getentropy(void *room, size_t size) {
  static long before;
  return is_failed("FAIL_RANDOM", &before) || syscall(SYS_getrandom, room, size, 0) != (long)size ? -1 : 0;
}

int clock_gettime(clockid_t clock, struct timespec *now) {
  const char *name = getenv("MOMENT");
  char text[32] = {0};
  long long moment;
  int file;
  if (clock != CLOCK_REALTIME || !name) return syscall(SYS_clock_gettime, clock, now);
  file = open(name, O_RDONLY);
  if (file < 0 || syscall(SYS_read, file, text, sizeof text - 1) <= 0) return -1;
  close(file);
  moment = atoll(text);
  now->tv_sec = moment / 1000000000;
  now->tv_nsec = moment % 1000000000;
  return 0;
}

__attribute__((destructor)) static void report(void) {
  const char *name = getenv("REPORT");
  char text[128];
  int file = name ? open(name, O_WRONLY | O_CREAT | O_TRUNC, 0600) : -1;
  if (file < 0) return;
  syscall(SYS_write, file, text,
          snprintf(text, sizeof text, "%ld %ld %ld %ld %ld\n", allocations, reads, writes, refused_size, reads_before));
  close(file);
}
