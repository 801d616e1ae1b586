/* Counts the growths of a program, each call of malloc and realloc (it makes no other), and refuses one of them, or all from one on.

   cc -O2 -shared -fPIC failing.c -o failing.so -ldl
   FAIL_COUNT=FILE FAIL_AT=N FAIL_ONWARD=1 LD_PRELOAD=./failing.so PROGRAM ..

   FILE gets the count, as eight bytes: it is mapped, since a program that ends without its destructors writes nothing at
   the end. Without FAIL_AT no growth is refused, and without FAIL_ONWARD that one alone. What is asked before the
   constructor has run is not counted. */
#define _GNU_SOURCE
#include <dlfcn.h>
#include <errno.h>
#include <fcntl.h>
#include <stdatomic.h>
#include <stdlib.h>
#include <sys/mman.h>
#include <unistd.h>

static void *(*real_malloc)(size_t);
static void *(*real_realloc)(void *, size_t);
static atomic_long own_count, *count = &own_count;
static long at;
static int onward, counts;

static void find(void) {
  real_malloc = dlsym(RTLD_NEXT, "malloc");
  real_realloc = dlsym(RTLD_NEXT, "realloc");
}

__attribute__((constructor)) static void begin(void) {
  const char *name = getenv("FAIL_COUNT"), *number = getenv("FAIL_AT");
  find();
  at = number ? atol(number) : 0;
  onward = getenv("FAIL_ONWARD") != NULL;
  int file = name ? open(name, O_RDWR | O_CREAT, 0644) : -1;
  if (file >= 0 && ftruncate(file, sizeof *count) == 0) {
    void *place = mmap(NULL, sizeof *count, PROT_READ | PROT_WRITE, MAP_SHARED, file, 0);
    if (place != MAP_FAILED) count = place;
  }
  if (file >= 0) close(file);
  *count = 0;
  counts = 1;
}

static int is_refused(void) {
  if (!counts) return 0;
  long number = ++*count;
  return at > 0 && (onward ? number >= at : number == at);
}

void *malloc(size_t size) {
  if (!real_malloc) find();
  if (!is_refused()) return real_malloc(size);
  errno = ENOMEM;
  return NULL;
}

void *realloc(void *place, size_t size) {
  if (!real_realloc) find();
  if (!is_refused()) return real_realloc(place, size);
  errno = ENOMEM;
  return NULL;
}
