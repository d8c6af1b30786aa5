// Stands before the C library's malloc, calloc and realloc, and fails the call of the program itself that has the number
// FAIL_ALLOCATION; a file comes then at the path FAILED. The calls of the C library's own functions, as opendir, aren't
// counted: they come from elsewhere. checks/failing-allocations compiles it.
#define _GNU_SOURCE
#include <errno.h>
#include <fcntl.h>
#include <link.h>
#include <stdlib.h>
#include <unistd.h>

void *__libc_malloc(size_t), *__libc_calloc(size_t, size_t), *__libc_realloc(void *, size_t);
static char *from, *to;
static long left = -1;

static int main_program(struct dl_phdr_info *info, size_t size, void *data) {
  for (int i = 0; i < info->dlpi_phnum; i++)
    if (info->dlpi_phdr[i].p_type == PT_LOAD) {
      char *first = (char *)info->dlpi_addr + info->dlpi_phdr[i].p_vaddr;
      if (from == NULL || first < from) from = first;
      if (first + info->dlpi_phdr[i].p_memsz > to) to = first + info->dlpi_phdr[i].p_memsz;
    }
  return 1;
}

__attribute__((constructor)) static void begin(void) {
  dl_iterate_phdr(main_program, NULL);
  left = atol(getenv("FAIL_ALLOCATION"));
}

static int fails(char *caller) {
  if (left < 0 || caller < from || caller >= to || --left != 0) return 0;
  left = -1;
  if (close(creat(getenv("FAILED"), 0600)) != 0) abort();
  errno = ENOMEM;
  return 1;
}

void *malloc(size_t size) { return fails(__builtin_return_address(0)) ? NULL : __libc_malloc(size); }
void *calloc(size_t count, size_t size) { return fails(__builtin_return_address(0)) ? NULL : __libc_calloc(count, size); }
void *realloc(void *place, size_t size) { return fails(__builtin_return_address(0)) ? NULL : __libc_realloc(place, size); }
