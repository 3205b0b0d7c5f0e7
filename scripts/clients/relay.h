/* What the relays share: sockets, messages of the protocol, the pool's rule of the gate, and a client's blocks. */
#include <netinet/in.h>
#include <netinet/tcp.h>
#include <pthread.h>
#include <stdio.h>
#include <stdlib.h>
#include <string.h>
#include <sys/socket.h>
#include <unistd.h>

enum { MOST = 8, ROOM = 16384, AHEAD = 32 };
static int servers, is_gated;
static struct sockaddr_in places[1 + MOST]; /* where it listens, and where the servers do */
static pthread_mutex_t counts = PTHREAD_MUTEX_INITIALIZER;
static pthread_cond_t behind_snapshots = PTHREAD_COND_INITIALIZER, behind_commits = PTHREAD_COND_INITIALIZER;
static int in_snapshot, in_commit, commits_waiting, ahead;

/* bytes that have come over a socket: those from `from` to `to` were not read yet */
struct wire {
  int socket;
  size_t from, to;
  char bytes[ROOM];
};

/* what a client is to be sent */
struct answer {
  size_t size;
  char bytes[ROOM];
};

/* a commit waits for the snapshots that are under way, and lets so many others begin meanwhile, as at the pool */
static int may_begin(void) { return !is_gated || (!in_commit && (!commits_waiting || ahead < AHEAD)); }

static void enter(int is_commit) {
  pthread_mutex_lock(&counts);
  if (is_commit) {
    for (commits_waiting++; is_gated && in_snapshot;) pthread_cond_wait(&behind_snapshots, &counts);
    if (--commits_waiting == 0) ahead = 0;
    in_commit++;
  } else {
    while (!may_begin()) pthread_cond_wait(&behind_commits, &counts);
    if (commits_waiting) ahead++;
    in_snapshot++;
  }
  pthread_mutex_unlock(&counts);
}

static void leave(int is_commit) {
  pthread_mutex_lock(&counts);
  --*(is_commit ? &in_commit : &in_snapshot);
  if (is_commit && may_begin()) pthread_cond_broadcast(&behind_commits);
  if (!is_commit && !in_snapshot) pthread_cond_broadcast(&behind_snapshots);
  pthread_mutex_unlock(&counts);
}

/* ends the session where a socket ends */
static void must(int is_good) { is_good ? (void)0 : pthread_exit(NULL); }

static void put(int onto, const char *bytes, ssize_t count) { must(send(onto, bytes, count, MSG_NOSIGNAL) == count); }

/* the next so many bytes, without passing over them; they stay where they are until more are wanted */
static char *see(struct wire *wire, size_t count) {
  must(count <= ROOM);
  if (wire->from == wire->to || wire->from + count > ROOM) {
    memmove(wire->bytes, wire->bytes + wire->from, wire->to -= wire->from);
    wire->from = 0;
  }
  for (ssize_t got; wire->to - wire->from < count; wire->to += got)
    must((got = recv(wire->socket, wire->bytes + wire->to, ROOM - wire->to, 0)) > 0);
  return wire->bytes + wire->from;
}

/* the next message, with its length, whose field stands behind so many bytes */
static char *message(struct wire *wire, int field, size_t *size) {
  unsigned stated;
  memcpy(&stated, see(wire, field + 4) + field, 4);
  *size = ntohl(stated) + field;
  char *found = see(wire, *size);
  wire->from += *size;
  return found;
}

/* puts bytes behind what the client is to be sent */
static void keep(struct answer *answer, const char *bytes, size_t size) {
  must(answer->size + size <= ROOM);
  memcpy(answer->bytes + answer->size, bytes, size);
  answer->size += size;
}

/* a socket to a place, whose messages are not held back */
static int joined(const struct sockaddr_in *place) {
  int made = socket(AF_INET, SOCK_STREAM, 0);
  setsockopt(made, IPPROTO_TCP, TCP_NODELAY, &(int){1}, sizeof(int));
  must(connect(made, (const struct sockaddr *)place, sizeof *place) == 0);
  return made;
}

/* a client, its links, and where its transaction stands */
struct session {
  struct wire client, links[MOST];
  struct answer answer;
  int is_block, is_live, has_written, has_failed;
};

/* What each relay does in its own way: a link is let in, and what the first server says of its settings is kept for the client; a statement
   runs at one server, if it reads, or at all; a transaction that is under way ends. */
static void join(struct session *self, int at, const char *start, size_t size);
static void run(struct session *self, const char *text);
static void finish(struct session *self, int is_commit);

static void let_go(void *given) {
  struct session *self = given;
  for (int at = 0; at < servers; at++) close(self->links[at].socket);
  close(self->client.socket), free(self);
}

static void query(struct session *self, const char *text) {
  int is_commit = text[0] == 'C' && !self->has_failed, is_end = is_commit || text[0] == 'C' || text[0] == 'R';
  self->answer.size = 0;
  if (text[0] == 'B') keep(&self->answer, "C\0\0\0\12BEGIN", 11);
  else if (!is_end) run(self, text);
  else {
    finish(self, is_commit);
    keep(&self->answer, is_commit ? "C\0\0\0\13COMMIT" : "C\0\0\0\15ROLLBACK", is_commit ? 12 : 14);
  }
  if (is_end || text[0] == 'B') self->is_block = !is_end, self->has_failed = 0;
  keep(&self->answer, self->has_failed ? "Z\0\0\0\5E" : self->is_block ? "Z\0\0\0\5T" : "Z\0\0\0\5I", 6);
  put(self->client.socket, self->answer.bytes, self->answer.size);
}

/* a single statement's transaction ends with it, and so does one that has failed */
static void settle(struct session *self, int is_good) {
  if (!is_good || !self->is_block) finish(self, is_good);
  self->has_failed = !is_good && self->is_block;
}

static void *serve(void *given) {
  struct session *self = given;
  size_t size;
  pthread_cleanup_push(let_go, self);
  char *start = message(&self->client, 0, &size);
  for (; size == 8; start = message(&self->client, 0, &size)) put(self->client.socket, "N", 1); /* there is no encryption */
  for (int at = 0; at < servers; at++) {
    self->links[at].socket = joined(&places[1 + at]);
    join(self, at, start, size);
  }
  keep(&self->answer, "Z\0\0\0\5I", 6);
  put(self->client.socket, self->answer.bytes, self->answer.size);
  for (char *next; (next = message(&self->client, 1, &size))[0] == 'Q';) query(self, next + 5);
  pthread_cleanup_pop(1);
  return NULL;
}

/* takes clients at the first port, each in a thread with so many bytes of its own, a session in front; the other ports are the servers' */
static int take(int count, char **ports, size_t room) {
  servers = count - 1;
  if (servers < 1 || servers > MOST) return 1;
  for (int at = 0; at <= servers; at++) {
    places[at] = (struct sockaddr_in){.sin_family = AF_INET, .sin_addr.s_addr = htonl(INADDR_LOOPBACK)};
    places[at].sin_port = htons(atoi(ports[at]));
  }
  int door = socket(AF_INET, SOCK_STREAM, 0);
  setsockopt(door, IPPROTO_TCP, TCP_NODELAY, &(int){1}, sizeof(int));
  if (bind(door, (struct sockaddr *)places, sizeof *places) || listen(door, 128)) return 1;
  for (;;) {
    struct session *self = calloc(1, room);
    pthread_t thread;
    for (int at = 0; at < servers; at++) self->links[at].socket = -1;
    self->client.socket = accept(door, NULL, NULL);
    if (pthread_create(&thread, NULL, serve, self)) return 1;
    pthread_detach(thread);
  }
}
