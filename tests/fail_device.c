/* Fails one call on one device of a program that is run with this library preloaded. The variable DEVICE is the path
   that the program opens, or 1 for standard output; CALL is open, read, write, rename or close; FAILS is the number of
   the call, from 1, or 0 for none. It fails by EIO, or where NOTHING is set a write takes nothing. Where PIECE is set,
   each read and write moves a byte at most. At the end it writes how many such calls came to the file that COUNTED
   names. */
#define _GNU_SOURCE
#include <errno.h>
#include <fcntl.h>
#include <stdarg.h>
#include <stdio.h>
#include <stdlib.h>
#include <string.h>
#include <sys/syscall.h>
#include <unistd.h>

enum { MOST = 1024 };

static char is_device[MOST];
static const char *call, *device;
static unsigned long calls, failing;
static int is_piece, takes_nothing;

__attribute__((constructor)) static void begin(void) {
  const char *number = getenv("FAILS");
  call = getenv("CALL");
  device = getenv("DEVICE");
  failing = number ? strtoul(number, NULL, 10) : 0;
  is_piece = getenv("PIECE") != NULL;
  takes_nothing = getenv("NOTHING") != NULL;
  is_device[STDOUT_FILENO] = device && strcmp(device, "1") == 0;
}

static int is_of_device(int fd) { return 0 <= fd && fd < MOST && is_device[fd]; }

/* Whether this call is the one that fails. */
static int is_failing(const char *name, int is_counted) {
  if (!is_counted || !call || strcmp(call, name) != 0) return 0;
  if (__atomic_add_fetch(&calls, 1, __ATOMIC_RELAXED) != failing) return 0;
  errno = EIO;
  return 1;
}

static size_t piece(int fd, size_t size) { return is_piece && fd != STDERR_FILENO && size > 1 ? 1 : size; }

/* A file that is written may have the name beside its own until it is whole. */
static int is_named_so(const char *path) {
  size_t length = device ? strlen(device) : 0;
  if (length == 0 || strncmp(path, device, length) != 0) return 0;
  return path[length] == 0 || strcmp(path + length, ".sparql-block-new") == 0;
}

static int open_device(const char *path, int flags, mode_t mode) {
  int is_named = is_named_so(path);
  if (is_failing("open", is_named)) return -1;
  int fd = syscall(SYS_openat, AT_FDCWD, path, flags, mode);
  if (0 <= fd && fd < MOST) is_device[fd] = is_named;
  return fd;
}

int open(const char *path, int flags, ...) {
  va_list rest;
  va_start(rest, flags);
  mode_t mode = flags & O_CREAT ? va_arg(rest, mode_t) : 0;
  va_end(rest);
  return open_device(path, flags, mode);
}

int open64(const char *path, int flags, ...) {
  va_list rest;
  va_start(rest, flags);
  mode_t mode = flags & O_CREAT ? va_arg(rest, mode_t) : 0;
  va_end(rest);
  return open_device(path, flags, mode);
}

ssize_t read(int fd, void *buf, size_t size) {
  return is_failing("read", is_of_device(fd)) ? -1 : syscall(SYS_read, fd, buf, piece(fd, size));
}

ssize_t write(int fd, const void *buf, size_t size) {
  if (is_failing("write", is_of_device(fd))) return takes_nothing ? 0 : -1;
  return syscall(SYS_write, fd, buf, piece(fd, size));
}

int rename(const char *from, const char *to) {
  if (is_failing("rename", device && strcmp(from, device) == 0)) return -1;
  return syscall(SYS_rename, from, to);
}

int close(int fd) {
  int is_named = is_of_device(fd);
  if (is_named && fd != STDOUT_FILENO) is_device[fd] = 0;
  int status = syscall(SYS_close, fd);
  return is_failing("close", is_named) ? -1 : status;
}

/* The program ends so, which runs no destructor. */
void _exit(int status) {
  const char *name = getenv("COUNTED");
  char text[32];
  int length = snprintf(text, sizeof text, "%lu\n", calls);
  int file = name ? syscall(SYS_openat, AT_FDCWD, name, O_WRONLY | O_CREAT | O_TRUNC, 0600) : -1;
  if (file >= 0) syscall(SYS_write, file, text, length);
  syscall(SYS_exit_group, status);
  __builtin_unreachable();
}
