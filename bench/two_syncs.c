/* two_syncs: what the disk allows of a journal whose entry counts once its gate is open.
 *
 *   two_syncs FILE COUNT SIZE [all]
 *
 * For each of COUNT entries of SIZE bytes it writes the entry, syncs, writes one byte, and syncs; it prints the seconds that
 * this took, or with `all` the rate a second and the p50 and p99 in milliseconds. The file is emptied first, and grows. */
#include <fcntl.h>
#include <stdio.h>
#include <stdlib.h>
#include <string.h>
#include <time.h>
#include <unistd.h>

static void put(int file, const char *bytes, size_t count, off_t place) {
  while (count > 0) {
    ssize_t written = pwrite(file, bytes, count, place);
    if (written <= 0) { perror("pwrite"); exit(1); }
    bytes += written;
    count -= written;
    place += written;
  }
}

static void sync_it(int file) {
  if (fdatasync(file) != 0) { perror("fdatasync"); exit(1); }
}

static double now(void) {
  struct timespec moment;
  clock_gettime(CLOCK_MONOTONIC, &moment);
  return moment.tv_sec + moment.tv_nsec / 1e9;
}

static int rising(const void *one, const void *other) {
  double a = *(const double *)one, b = *(const double *)other;
  return (a > b) - (a < b);
}

int main(int argc, char **argv) {
  int all = argc == 5 && !strcmp(argv[4], "all");
  if (argc != 4 && !all) { fprintf(stderr, "usage: two_syncs FILE COUNT SIZE [all]\n"); return 2; }
  long count = atol(argv[2]), size = atol(argv[3]);
  int file = open(argv[1], O_RDWR | O_CREAT | O_TRUNC, 0644);
  if (file < 0) { perror("open"); return 1; }
  char *entry = malloc(size + 1);
  double *took = calloc(count + 1, sizeof *took);
  if (entry == NULL || took == NULL) return 1;
  memset(entry, 'x', size + 1);
  double begun = now(), last = begun;
  off_t place = 0;
  for (long k = 0; k < count; k++) {
    put(file, entry, size + 1, place);
    sync_it(file);
    put(file, "\1", 1, place);
    sync_it(file);
    place += size;
    double moment = now();
    took[k] = moment - last;
    last = moment;
  }
  if (all) {
    qsort(took, count, sizeof *took, rising);
    printf("%.1f %.3f %.3f\n", count / (last - begun), took[count / 2] * 1e3, took[count * 99 / 100] * 1e3);
  } else {
    printf("%.3f\n", last - begun);
  }
  return ftruncate(file, 0) == 0 ? 0 : 1;
}
