/* bare_relay gate|free PORT SERVER..: the least that can stand where the pool does. It serves clients by simple queries, reads no
   SQL beyond the first letter of a text, and sends the servers at these ports what the pool sends them, one server after another.
   With `gate` no snapshot is taken while a commit is under way, and the reverse, as the pool has it; with `free` nobody waits for
   another. */
#include "relay.h"

/* whether what comes up to ReadyForQuery is no error; it is kept, without that, if it is to be */
static int hear(struct session *self, struct wire *link, int is_kept) {
  for (int is_good = 1;;) {
    size_t size;
    char *found = message(link, 1, &size);
    if (found[0] == 'Z') return is_good;
    if (found[0] == 'E') is_good = 0;
    if (is_kept) keep(&self->answer, found, size);
  }
}

/* whether the servers from the first on, so many, take the text, one after another; what the first says is kept if it is to be */
static int all(struct session *self, int count, const char *text, int is_kept) {
  char bytes[ROOM];
  int size = snprintf(bytes, ROOM, "Q----%s", text) + 1;
  unsigned length = htonl(size - 1);
  must(size <= ROOM);
  memcpy(bytes + 1, &length, 4);
  for (int at = 0; at < count; at++) {
    put(self->links[at].socket, bytes, size);
    if (!hear(self, &self->links[at], is_kept && at == 0)) return 0;
  }
  return 1;
}

static void finish(struct session *self, int is_commit) {
  if (!self->is_live) return;
  if (is_commit && self->has_written) enter(1);
  all(self, servers, is_commit ? "COMMIT" : "ROLLBACK", 0);
  if (is_commit && self->has_written) leave(1);
  self->is_live = self->has_written = 0;
}

/* a statement that reads at one server, or writes at all of them */
static void run(struct session *self, const char *text) {
  if (!self->is_live) {
    enter(0);
    must(all(self, servers, "BEGIN ISOLATION LEVEL REPEATABLE READ; SELECT 1", 0));
    leave(0);
  }
  self->is_live = 1, self->has_written |= text[0] != 'S';
  settle(self, all(self, text[0] == 'S' ? 1 : servers, text, 1));
}

static void join(struct session *self, int at, const char *start, size_t size) {
  put(self->links[at].socket, start, size);
  must(hear(self, &self->links[at], at == 0));
}

int main(int count, char **words) {
  if (count < 4) return 1;
  is_gated = strcmp(words[1], "gate") == 0;
  return take(count - 2, words + 2, sizeof(struct session));
}
