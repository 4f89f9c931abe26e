/* Refuses one allocation of a program that is run with this library preloaded: the one whose number, counted
   from 1, the variable REFUSE gives. At the end it writes how many were asked for to the file that COUNTED names.
   A shell that starts the program is let be. */
#include <errno.h>
#include <fcntl.h>
#include <stdio.h>
#include <stdlib.h>
#include <string.h>
#include <sys/syscall.h>
#include <unistd.h>

extern char *program_invocation_short_name;

static unsigned long asked;
static unsigned long refused;

__attribute__((constructor)) static void begin(void) {
  const char *number = getenv("REFUSE");
  if (number && strcmp(program_invocation_short_name, "sh") != 0) refused = strtoul(number, NULL, 10);
  /* what the loader asked for before is not the program's */
  asked = 0;
}

static int is_refused(void) {
  /* threads count too */
  if (__atomic_add_fetch(&asked, 1, __ATOMIC_RELAXED) != refused) return 0;
  errno = ENOMEM;
  return 1;
}

extern void *__libc_malloc(size_t);
extern void *__libc_calloc(size_t, size_t);
extern void *__libc_realloc(void *, size_t);
extern void *__libc_memalign(size_t, size_t);

void *malloc(size_t size) { return is_refused() ? NULL : __libc_malloc(size); }

void *calloc(size_t count, size_t size) { return is_refused() ? NULL : __libc_calloc(count, size); }

void *realloc(void *old, size_t size) { return is_refused() ? NULL : __libc_realloc(old, size); }

void *aligned_alloc(size_t alignment, size_t size) {
  return is_refused() ? NULL : __libc_memalign(alignment, size);
}

int posix_memalign(void **place, size_t alignment, size_t size) {
  if (is_refused()) return ENOMEM;
  *place = __libc_memalign(alignment, size);
  return *place ? 0 : ENOMEM;
}

/* It takes no memory, so that it counts nothing. A program that returns from main ends so. */
__attribute__((destructor)) static void end(void) {
  const char *name = getenv("COUNTED");
  char text[32];
  int length = snprintf(text, sizeof text, "%lu\n", asked);
  int file = name ? open(name, O_WRONLY | O_CREAT | O_TRUNC, 0600) : -1;
  if (file >= 0) {
    if (write(file, text, length) != length) abort();
    close(file);
  }
}

/* One that exits ends so, which runs no destructor. */
void _exit(int status) {
  end();
  syscall(SYS_exit_group, status);
  __builtin_unreachable();
}
