// waiting SECONDS: the waits of an idle run of `live` and nothing else, for bench/live.sh. One thread waits for a datagram, of which none
// comes, for 5 milliseconds at a time; another sleeps until each block of 20 milliseconds begins.
#include <netinet/in.h>
#include <pthread.h>
#include <stdlib.h>
#include <sys/epoll.h>
#include <sys/socket.h>
#include <time.h>

enum { PATIENCE = 5, BLOCK = 20000000, SECOND = 1000000000 };

static long seconds;

static void *blocks(void *unused) {
  struct timespec at;
  clock_gettime(CLOCK_MONOTONIC, &at);
  for (long block = 0; block < seconds * (SECOND / BLOCK); block++) {
    at.tv_nsec += BLOCK;
    if (at.tv_nsec >= SECOND) {
      at.tv_nsec -= SECOND;
      at.tv_sec++;
    }
    clock_nanosleep(CLOCK_MONOTONIC, TIMER_ABSTIME, &at, NULL);
  }
  return unused;
}

int main(int count, char **words) {
  seconds = count == 2 ? atol(words[1]) : 0;
  struct sockaddr_in own = {.sin_family = AF_INET, .sin_addr.s_addr = htonl(INADDR_LOOPBACK)};
  struct epoll_event event = {.events = EPOLLIN};
  int gate = socket(AF_INET, SOCK_DGRAM, 0), poll = epoll_create1(0);
  pthread_t audio;
  if (seconds < 1 || gate < 0 || poll < 0 || bind(gate, (void *)&own, sizeof own) != 0 ||
      epoll_ctl(poll, EPOLL_CTL_ADD, gate, &event) != 0 || pthread_create(&audio, NULL, blocks, NULL) != 0) {
    return 1;
  }
  struct timespec start, now;
  clock_gettime(CLOCK_MONOTONIC, &start);
  do {
    epoll_wait(poll, &event, 1, PATIENCE);
    clock_gettime(CLOCK_MONOTONIC, &now);
  } while ((now.tv_sec - start.tv_sec) * SECOND + now.tv_nsec - start.tv_nsec < seconds * SECOND);
  return pthread_join(audio, NULL);
}
