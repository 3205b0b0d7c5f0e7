/* bare_driver KIND CLIENTS SECONDS PORT..: what the pool asks of its servers, sent without the pool. KIND is read, update, block
   or chained: reads whose COMMIT goes with the next snapshot, as the pool sends it. It prints how many transactions were
   committed in a second, and the median and the longest time of them, in milliseconds. */
#include <libpq-fe.h>
#include <pthread.h>
#include <stdio.h>
#include <stdlib.h>
#include <string.h>
#include <time.h>

enum { MOST = 8 };
static const char *BEGIN = "BEGIN ISOLATION LEVEL REPEATABLE READ; SELECT 1";
static const char *NEXT = "COMMIT AND CHAIN; SELECT 1";
static const char *kind;
static int servers, seconds;
static char **ports;

struct client {
  pthread_t thread;
  unsigned seed;
  long committed, room;
  double *times;
};

static double now(void) {
  struct timespec t;
  clock_gettime(CLOCK_MONOTONIC, &t);
  return t.tv_sec + t.tv_nsec / 1e9;
}

/* whether the servers from the first on, so many, take the text, one after another */
static int all(PGconn **links, int count, const char *text) {
  int good = 1;
  for (int at = 0; at < count && good; at++) {
    PGresult *result = PQexec(links[at], text);
    ExecStatusType status = PQresultStatus(result);
    good = status == PGRES_COMMAND_OK || status == PGRES_TUPLES_OK;
    PQclear(result);
  }
  return good;
}

static int transaction(PGconn **links, unsigned *seed, int is_open) {
  char read[80], write[80];
  int key = rand_r(seed) % 100 + 1;
  snprintf(read, sizeof read, "SELECT v FROM accounts WHERE id = %d", key);
  snprintf(write, sizeof write, "UPDATE accounts SET v = v + 1 WHERE id = %d", key);
  int chained = !strcmp(kind, "chained"), reads = chained || !strcmp(kind, "read");
  int good = all(links, servers, is_open ? NEXT : BEGIN);
  if (strcmp(kind, "update") != 0) good = good && all(links, 1, read);
  if (!reads) good = good && all(links, servers, write);
  if (good) return chained || all(links, servers, "COMMIT");
  for (int at = 0; at < servers; at++) PQclear(PQexec(links[at], "ROLLBACK"));
  return 0;
}

static void note(struct client *self, double took) {
  if (self->committed == self->room) self->times = realloc(self->times, (self->room += self->room + 4096) * sizeof took);
  if (!self->times) exit(1);
  self->times[self->committed++] = took * 1000;
}

static int compare(const void *one, const void *other) {
  double less = *(const double *)one - *(const double *)other;
  return less < 0 ? -1 : less > 0;
}

static void *run(void *given) {
  struct client *self = given;
  PGconn *links[MOST];
  char place[120];
  for (int at = 0; at < servers; at++) {
    snprintf(place, sizeof place, "host=127.0.0.1 port=%s user=pool dbname=pool sslmode=disable gssencmode=disable", ports[at]);
    links[at] = PQconnectdb(place);
    if (PQstatus(links[at]) != CONNECTION_OK) exit(1);
  }
  int good = 0;
  for (double begun = now(), end = begun + seconds; begun < end;) {
    good = transaction(links, &self->seed, good && !strcmp(kind, "chained"));
    double done = now();
    if (good) note(self, done - begun);
    begun = done;
  }
  for (int at = 0; at < servers; at++) PQfinish(links[at]);
  return NULL;
}

int main(int count, char **words) {
  if (count < 5 || count > 4 + MOST) return 1;
  int clients = atoi(words[2]);
  kind = words[1];
  seconds = atoi(words[3]);
  servers = count - 4;
  ports = words + 4;
  struct client *all_clients = calloc(clients, sizeof *all_clients), whole = {0};
  for (int at = 0; at < clients; at++) {
    all_clients[at].seed = at + 1;
    if (pthread_create(&all_clients[at].thread, NULL, run, &all_clients[at])) return 1;
  }
  for (int at = 0; at < clients; at++) {
    pthread_join(all_clients[at].thread, NULL);
    for (long place = 0; place < all_clients[at].committed; place++) note(&whole, all_clients[at].times[place] / 1000);
  }
  qsort(whole.times, whole.committed, sizeof *whole.times, compare);
  if (!whole.committed) return 1;
  printf("%ld %.3f %.1f\n", whole.committed / seconds, whole.times[whole.committed / 2], whole.times[whole.committed - 1]);
  return 0;
}
