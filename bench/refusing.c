/* Laid under a program (LD_PRELOAD), it refuses what the environment says. bench/refused.sh and bench/live.sh build it.
 *   REFUSE_GROWTH=N    the N-th growth, from 1: a call of malloc, calloc, realloc, posix_memalign or aligned_alloc answers that there is no
 *                      memory. Those of the loader, before the program begins, don't count.
 *   TELL_GROWTHS=FILE  how many there were is kept there, in a long, while the program runs
 *   BREAK_SOCKETS=MS   so many milliseconds after the first call of a socket's own, each one answers that it is no socket (EBADF)
 */
#define _GNU_SOURCE
#include <dlfcn.h>
#include <errno.h>
#include <fcntl.h>
#include <stdatomic.h>
#include <stdlib.h>
#include <sys/mman.h>
#include <sys/socket.h>
#include <time.h>
#include <unistd.h>

void *__libc_malloc(size_t);
void *__libc_calloc(size_t, size_t);
void *__libc_realloc(void *, size_t);
void *__libc_memalign(size_t, size_t);

static atomic_long own, *growths = &own;
static long refused = -1;
static int counts;

static int is_refused(void) { return counts && atomic_fetch_add(growths, 1) + 1 == refused; }

__attribute__((constructor)) static void begin(void) {
  const char *said = getenv("REFUSE_GROWTH"), *file = getenv("TELL_GROWTHS");
  if (said) refused = atol(said);
  if (file) {
    int at = open(file, O_RDWR | O_CREAT, 0600);
    void *shared = at >= 0 && ftruncate(at, sizeof own) == 0 ? mmap(NULL, sizeof own, PROT_READ | PROT_WRITE, MAP_SHARED, at, 0) : MAP_FAILED;
    if (shared == MAP_FAILED) _exit(125);
    growths = shared;
  }
  counts = 1;
}

void *malloc(size_t size) {
  if (is_refused()) return errno = ENOMEM, NULL;
  return __libc_malloc(size);
}

void *calloc(size_t count, size_t size) {
  if (is_refused()) return errno = ENOMEM, NULL;
  return __libc_calloc(count, size);
}

void *realloc(void *old, size_t size) {
  if (is_refused()) return errno = ENOMEM, NULL;
  return __libc_realloc(old, size);
}

int posix_memalign(void **to, size_t align, size_t size) {
  if (is_refused()) return ENOMEM;
  *to = __libc_memalign(align, size);
  return *to ? 0 : ENOMEM;
}

void *aligned_alloc(size_t align, size_t size) {
  if (is_refused()) return errno = ENOMEM, NULL;
  return __libc_memalign(align, size);
}

static int is_broken(void) {
  static _Atomic long first;
  static long after = -2;
  struct timespec now;
  if (after == -2) {
    const char *said = getenv("BREAK_SOCKETS");
    after = said ? atol(said) : -1;
  }
  if (after < 0) return 0;
  clock_gettime(CLOCK_MONOTONIC, &now);
  long at = now.tv_sec * 1000 + now.tv_nsec / 1000000, none = 0;
  atomic_compare_exchange_strong(&first, &none, at);
  return at - first >= after;
}

#define SOCKET_CALL(name, parameters, arguments)                  \
  ssize_t name parameters {                                       \
    static ssize_t(*real) parameters;                             \
    if (!real) real = dlsym(RTLD_NEXT, #name);                    \
    if (is_broken()) return errno = EBADF, -1;                    \
    return real arguments;                                        \
  }

SOCKET_CALL(sendto, (int fd, const void *bytes, size_t size, int flags, const struct sockaddr *to, socklen_t length),
            (fd, bytes, size, flags, to, length))
SOCKET_CALL(recvfrom, (int fd, void *restrict bytes, size_t size, int flags, struct sockaddr *restrict from, socklen_t *restrict length),
            (fd, bytes, size, flags, from, length))
SOCKET_CALL(send, (int fd, const void *bytes, size_t size, int flags), (fd, bytes, size, flags))
SOCKET_CALL(recv, (int fd, void *bytes, size_t size, int flags), (fd, bytes, size, flags))
SOCKET_CALL(sendmsg, (int fd, const struct msghdr *message, int flags), (fd, message, flags))
SOCKET_CALL(recvmsg, (int fd, struct msghdr *message, int flags), (fd, message, flags))
