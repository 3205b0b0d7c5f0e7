/* load PORT DATABASE USER simple|extended KIND CLIENTS SECONDS ROWS: so many clients run one kind of transaction over a table of so many
   rows, each the next as soon as the one before it has ended: read, update, block (both in one transaction) or mix (four reads to an
   update). It tells how many ended in a second, how many milliseconds half, 99 of a hundred and the longest took, and how many failed. A
   transaction that fails is rolled back. What the server says of the state of a transaction is not looked at: Pgpool-II says of a single
   statement that a transaction is under way, so that pgbench gives up. */
#include <libpq-fe.h>
#include <pthread.h>
#include <stdio.h>
#include <stdlib.h>
#include <string.h>
#include <time.h>

enum { MOST = 4000000 };
static char **given;
static int is_extended, rows, failed;
static double seconds, *times;
static long count;
static pthread_barrier_t all_in;
static pthread_mutex_t lock = PTHREAD_MUTEX_INITIALIZER;

static double now(void) {
  struct timespec time;
  clock_gettime(CLOCK_MONOTONIC, &time);
  return time.tv_sec + time.tv_nsec / 1e9;
}

/* whether a statement of one parameter, or of none, is done */
static int run(PGconn *link, const char *text, const char *key) {
  char whole[200];
  const char *hole = strstr(text, "$1");
  PGresult *result;
  if (is_extended) result = PQexecParams(link, text, hole ? 1 : 0, NULL, &key, NULL, NULL, 0);
  else {
    snprintf(whole, sizeof whole, "%.*s%s", hole ? (int)(hole - text) : (int)strlen(text), text, hole ? key : "");
    result = PQexec(link, whole);
  }
  int status = PQresultStatus(result);
  PQclear(result);
  return status == PGRES_COMMAND_OK || status == PGRES_TUPLES_OK;
}

static int transaction(PGconn *link, const char *kind, unsigned *drawn) {
  char key[12];
  snprintf(key, sizeof key, "%d", 1 + rand_r(drawn) % rows);
  int reads = kind[0] == 'r' || kind[0] == 'b' || (kind[0] == 'm' && rand_r(drawn) % 5), is_block = kind[0] == 'b';
  int good = !is_block || run(link, "BEGIN", key);
  if (good && reads) good = run(link, "SELECT v FROM accounts WHERE id = $1", key);
  if (good && (!reads || is_block)) good = run(link, "UPDATE accounts SET v = v + 1 WHERE id = $1", key);
  if (is_block) good &= run(link, good ? "COMMIT" : "ROLLBACK", key);
  return good;
}

static void *client(void *number) {
  char place[300];
  unsigned drawn = 1 + (unsigned)(size_t)number;
  snprintf(place, sizeof place, "host=127.0.0.1 port=%s dbname=%s user=%s", given[1], given[2], given[3]);
  PGconn *link = PQconnectdb(place);
  if (PQstatus(link) != CONNECTION_OK) fprintf(stderr, "%s", PQerrorMessage(link)), exit(1);
  pthread_barrier_wait(&all_in);
  for (double begun = now(), at = begun; at - begun < seconds;) {
    int good = transaction(link, given[5], &drawn);
    double end = now();
    if (PQstatus(link) != CONNECTION_OK) fprintf(stderr, "a connection ended: %s", PQerrorMessage(link)), exit(1);
    pthread_mutex_lock(&lock);
    if (!good) failed++;
    else if (count < MOST) times[count++] = (end - at) * 1000;
    pthread_mutex_unlock(&lock);
    at = end;
  }
  PQfinish(link);
  return NULL;
}

static int by_size(const void *one, const void *other) {
  double difference = *(const double *)one - *(const double *)other;
  return (difference > 0) - (difference < 0);
}

int main(int words, char **texts) {
  if (words != 9) return 1;
  given = texts, is_extended = texts[4][0] == 'e', seconds = atof(texts[7]), rows = atoi(texts[8]);
  int clients = atoi(texts[6]);
  pthread_t threads[clients];
  times = malloc(MOST * sizeof *times);
  pthread_barrier_init(&all_in, NULL, clients);
  for (size_t at = 0; at < (size_t)clients; at++) pthread_create(&threads[at], NULL, client, (void *)at);
  for (int at = 0; at < clients; at++) pthread_join(threads[at], NULL);
  if (!count) return 1;
  qsort(times, count, sizeof *times, by_size);
  printf("%.1f %.3f %.3f %.3f %d\n", count / seconds, times[count / 2], times[count * 99 / 100], times[count - 1], failed);
  return 0;
}
