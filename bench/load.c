/* load: a bounded load of HTTP requests over connections that are kept alive, or over one connection a request.
 *
 *   load -p PORT [-h HOST] [-P PATH] [-c CONNECTIONS] [-n REQUESTS] [-d SECONDS] [-C] [-s STATUS] [-e PREFIX]
 *        [-H HEAD-LINE]... FILE...
 *
 * FILE is a raw request: a head, an empty line and a body. Its method, body and Content-Type are sent, with a head of our
 * own; of a GET also its path. Bodies in chunks are refused. Several files are sent in turn.
 *   -C         one connection a request (Connection: close), else they are kept alive
 *   -n, -d     ends after so many requests or seconds, whichever comes first (100000, 60)
 *   -s, -e     an answer counts only with this status and a body that begins so (200, CrashID=bp-)
 * It prints the rate a second, and the p50 and p99 in milliseconds, of the answers that count; where some don't, it says so
 * and ends with 1. A latency is from before the connect (-C) or the first byte sent to the answer's last byte.
 */
#define _GNU_SOURCE
#include <arpa/inet.h>
#include <errno.h>
#include <netinet/tcp.h>
#include <pthread.h>
#include <stdatomic.h>
#include <stdint.h>
#include <stdio.h>
#include <stdlib.h>
#include <string.h>
#include <sys/socket.h>
#include <sys/uio.h>
#include <time.h>
#include <unistd.h>

struct message { char *head, *body; size_t head_len, body_len; };

static struct message messages[64];
static int message_count;
static const char *host = "127.0.0.1", *path = NULL, *status = "200", *expect = "CrashID=bp-";
static char extra[4096];
static int port, conns = 1, keep = 1;
static double seconds = 60;
static long max = 100000;
static atomic_long taken;
static atomic_long errors, reconnects;
static double deadline;
static uint32_t *latency; /* microseconds, by ticket; 0 is none */
static atomic_int told;

static double now(void) {
  struct timespec t;
  clock_gettime(CLOCK_MONOTONIC, &t);
  return t.tv_sec + t.tv_nsec / 1e9;
}

static void die(const char *what) { perror(what); exit(2); }

static void add_message(const char *file) {
  FILE *f = fopen(file, "rb");
  if (!f) die(file);
  fseek(f, 0, SEEK_END);
  long len = ftell(f);
  rewind(f);
  char *data = malloc(len + 1);
  if (fread(data, 1, len, f) != (size_t)len) die(file);
  fclose(f);
  data[len] = 0;
  char *end = memmem(data, len, "\r\n\r\n", 4);
  if (!end) { fprintf(stderr, "%s: no head\n", file); exit(2); }
  *end = 0;
  int is_get = !strncmp(data, "GET ", 4);
  char *line = strchr(data, '\r'), *type = line ? strcasestr(line, "\r\nContent-Type:") : NULL;
  if (line && strcasestr(line, "\r\nTransfer-Encoding:")) { fprintf(stderr, "%s: a body in chunks\n", file); exit(2); }
  if (type) {
    type += 15;
    while (*type == ' ') type++;
    type[strcspn(type, "\r")] = 0;
  }
  char *target = strchr(data, ' ') + 1;
  target[strcspn(target, " \r")] = 0;
  struct message *m = &messages[message_count++];
  m->body = end + 4;
  m->body_len = data + len - m->body;
  char kind[512] = "";
  if (type) snprintf(kind, sizeof kind, "Content-Type: %s\r\n", type);
  if (!is_get) snprintf(kind + strlen(kind), 64, "Content-Length: %zu\r\n", m->body_len);
  m->head_len = asprintf(&m->head, "%s %s HTTP/1.1\r\nHost: %s:%d\r\nUser-Agent: load\r\n%s%s%s\r\n",
      is_get ? "GET" : "POST", path ? path : is_get ? target : "/submit", host, port, kind, extra,
      keep ? "" : "Connection: close\r\n");
}

static int dial(void) {
  int s = socket(AF_INET, SOCK_STREAM, 0), one = 1;
  struct sockaddr_in a = {.sin_family = AF_INET, .sin_port = htons(port)};
  struct timeval limit = {10, 0};
  inet_pton(AF_INET, host, &a.sin_addr);
  setsockopt(s, IPPROTO_TCP, TCP_NODELAY, &one, sizeof one);
  setsockopt(s, SOL_SOCKET, SO_RCVTIMEO, &limit, sizeof limit);
  setsockopt(s, SOL_SOCKET, SO_SNDTIMEO, &limit, sizeof limit);
  if (connect(s, (void *)&a, sizeof a)) { close(s); return -1; }
  return s;
}

static int send_all(int s, struct message *m) {
  struct iovec v[2] = {{m->head, m->head_len}, {m->body, m->body_len}};
  int i = 0;
  while (i < 2) {
    struct msghdr h = {.msg_iov = v + i, .msg_iovlen = 2 - i};
    ssize_t n = sendmsg(s, &h, MSG_NOSIGNAL);
    if (n < 0) return -1;
    while (i < 2 && (size_t)n >= v[i].iov_len) n -= v[i++].iov_len;
    if (i < 2) { v[i].iov_base = (char *)v[i].iov_base + n; v[i].iov_len -= n; }
  }
  return 0;
}

/* 1 good, 0 bad, -1 connection lost; *closing where the server ends the connection */
static int reply(int s, int *closing) {
  char b[16384];
  size_t have = 0;
  *closing = 0;
  for (;;) {
    ssize_t n = recv(s, b + have, sizeof b - 1 - have, 0);
    if (n < 0 || (n == 0 && have == 0)) return -1;
    have += n;
    b[have] = 0;
    char *end = memmem(b, have, "\r\n\r\n", 4);
    if (!end) { if (n == 0 || have == sizeof b - 1) return -1; continue; }
    char *body = end + 4, *p;
    size_t got = b + have - body, need;
    *end = 0; /* only the head is searched */
    *closing = strcasestr(b, "\r\nConnection: close") != NULL;
    if ((p = strcasestr(b, "\r\nContent-Length:"))) need = strtoul(p + 17, NULL, 10);
    else if (strcasestr(b, "\r\nTransfer-Encoding: chunked")) {
      char *last = memmem(body, got, "\r\n0\r\n\r\n", 7);
      need = last ? got : got + 1;
      if (last) { body = strchr(body, '\n') + 1; }
    } else { need = n == 0 ? got : got + 1; *closing = 1; }
    *end = '\r';
    if (got < need) { if (n == 0 || have == sizeof b - 1) return -1; continue; }
    int good = b[8] == ' ' && !strncmp(b + 9, status, 3) && !strncmp(body, expect, strlen(expect));
    if (!good && !atomic_exchange(&told, 1)) fprintf(stderr, "unexpected reply: %.300s\n", b);
    return good;
  }
}

static void *worker(void *arg) {
  (void)arg;
  int s = -1, closing;
  if (keep && (s = dial()) < 0) { atomic_fetch_add(&errors, 1); return NULL; }
  for (;;) {
    if (now() >= deadline) break;
    long k = atomic_fetch_add(&taken, 1);
    if (k >= max) break;
    double from = now();
    if (s < 0 && (s = dial()) < 0) {
      if (!atomic_exchange(&told, 1)) perror("connect");
      atomic_fetch_add(&errors, 1);
      usleep(1000);
      continue;
    }
    int sent = send_all(s, &messages[k % message_count]);
    int good = reply(s, &closing); /* a refusal may come before all is sent */
    double took = now() - from;
    if (good == 1 && sent == 0) latency[k] = took * 1e6 < 1 ? 1 : (uint32_t)(took * 1e6);
    else atomic_fetch_add(&errors, 1);
    if (!keep || closing || good < 0 || sent) {
      if (keep) atomic_fetch_add(&reconnects, 1);
      close(s);
      s = -1;
    }
  }
  if (s >= 0) close(s);
  return NULL;
}

static int rising(const void *a, const void *b) {
  uint32_t x = *(const uint32_t *)a, y = *(const uint32_t *)b;
  return (x > y) - (x < y);
}

int main(int argc, char **argv) {
  int o;
  while ((o = getopt(argc, argv, "h:p:P:c:d:n:Cs:e:H:")) != -1) switch (o) {
    case 'h': host = optarg; break;
    case 'p': port = atoi(optarg); break;
    case 'P': path = optarg; break;
    case 'c': conns = atoi(optarg); break;
    case 'd': seconds = atof(optarg); break;
    case 'n': max = atol(optarg); break;
    case 'C': keep = 0; break;
    case 's': status = optarg; break;
    case 'e': expect = optarg; break;
    case 'H': strncat(extra, optarg, 1000); strcat(extra, "\r\n"); break;
    default: return 2;
  }
  if (!port || optind == argc || conns < 1 || conns > 256 || argc - optind > 64) {
    fprintf(stderr, "usage: load -p PORT [options] FILE...\n");
    return 2;
  }
  while (optind < argc) add_message(argv[optind++]);
  latency = calloc(max, sizeof *latency);
  pthread_t t[256];
  double from = now();
  deadline = from + seconds;
  for (int i = 0; i < conns; i++) pthread_create(&t[i], NULL, worker, NULL);
  for (int i = 0; i < conns; i++) pthread_join(t[i], NULL);
  double took = now() - from;
  long ok = 0;
  for (long i = 0; i < max; i++) if (latency[i]) latency[ok++] = latency[i];
  qsort(latency, ok, sizeof *latency, rising);
  if (errors || !ok) fprintf(stderr, "load: %ld answers count, %ld don't\n", ok, (long)errors);
  if (!ok) return 1;
  printf("%.1f %.3f %.3f\n", ok / took, latency[ok / 2] / 1e3, latency[ok * 99 / 100] / 1e3);
  return errors ? 1 : 0;
}
