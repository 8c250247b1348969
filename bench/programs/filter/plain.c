// A plain filter: 512 pairs of doubles in a ring, which are summed anew at each call. It prints the same lines as the program above.
#include <math.h>
#include <stdint.h>
#include <stdio.h>
#include <time.h>

enum { ROUNDS = 200, CALLS = 10000, KEPT = 512 };

struct filter {
  double sample[KEPT], host[KEPT];
  unsigned count, next;
};

static int64_t sample_of(uint32_t k) { return 256 * (int64_t)k; }

static int64_t host_of(uint32_t k) { return 5333 * (int64_t)k + (int64_t)(k * 0x9E3779B97F4A7C15u >> 52); }

// What is summed is counted from the newest pair, so that nothing is lost in large numbers.
static __attribute__((noinline)) double add(struct filter *filter, double sample, double host) {
  filter->sample[filter->next] = sample;
  filter->host[filter->next] = host;
  filter->next = (filter->next + 1) % KEPT;
  if (filter->count < KEPT) filter->count++;
  double samples = 0, hosts = 0, squares = 0, products = 0;
  for (unsigned k = 0; k < filter->count; k++) {
    double x = filter->sample[k] - sample, y = filter->host[k] - host;
    samples += x;
    hosts += y;
    squares += x * x;
    products += x * y;
  }
  double across = filter->count * squares - samples * samples;
  if (across == 0) return host;
  return host + (hosts * squares - samples * products) / across;
}

static int64_t round_of(struct filter *filter, int adds, uint32_t calls, uint32_t from, int64_t sum) {
  for (uint32_t k = from; k < from + calls; k++) {
    int64_t sample = sample_of(k), host = host_of(k);
    sum += adds ? llround(add(filter, (double)sample, (double)host)) : sample ^ host;
  }
  return sum;
}

static int64_t now(void) {
  struct timespec time;
  clock_gettime(CLOCK_MONOTONIC, &time);
  return time.tv_sec * INT64_C(1000000000) + time.tv_nsec;
}

static void tell(const char *name, int adds) {
  static struct filter filter;
  filter.count = filter.next = 0;
  int64_t sum = round_of(&filter, adds, KEPT, 0, 0), least = INT64_MAX, whole = 0;
  for (uint32_t round = 0; round < ROUNDS; round++) {
    int64_t start = now();
    sum = round_of(&filter, adds, CALLS, round * CALLS + KEPT, sum);
    int64_t spent = now() - start;
    if (spent < least) least = spent;
    whole += spent;
  }
  printf("%s %d %lld %lld %lld\n", name, CALLS, (long long)least, (long long)whole, (long long)sum);
}

int main(void) {
  tell("nothing", 0);
  tell("add", 1);
}
