/* asking_relay PORT SERVER..: what a relay by the pool's rules can do that asks all servers at once. Snapshots go to all of them at once, a
   write goes to the replicas at once behind the primary's answer, a COMMIT goes to all at once behind the gate. The end of a transaction
   that has only read goes with the next snapshot. BEGIN, COMMIT, ROLLBACK and each statement, with $n in place of its numbers, are prepared
   at the servers. The first statement goes in one group with its own server's snapshot, which that server tells at once, so that the gate
   is left before the statement may wait for a row. It serves clients by simple queries and reads no SQL beyond a text's first letter and
   its numbers. */
#include "relay.h"

enum { TEXT = 256, STATEMENTS = 16, VALUES = 8, BEGINS = 0, CHAINS, COMMITS, ROLLS, LOOKS, FIXED };
static const char *fixed[FIXED] = {"BEGIN ISOLATION LEVEL REPEATABLE READ", "COMMIT AND CHAIN", "COMMIT", "ROLLBACK", "SELECT 1"};

/* a statement that servers know by name: which of them do, and what they say of its columns */
struct statement {
  char text[TEXT], columns[512];
  size_t size;
  int known;
};

/* what a link is to be sent, and how many answers are awaited there */
struct outbox {
  size_t size;
  int awaited;
  char bytes[ROOM];
};

/* a session, and what it has at its links */
struct asking {
  struct session session;
  struct outbox out[MOST];
  struct statement statements[STATEMENTS];
  const char *values[VALUES];
  int lengths[VALUES], value_count, statement_count, is_owed;
};

/* a message behind what a link is to be sent */
static void say(struct outbox *out, char type, const char *body, size_t size) {
  unsigned length = htonl(size + 4);
  must(out->size + size + 5 <= ROOM);
  char *to = out->bytes + out->size;
  to[0] = type, memcpy(to + 1, &length, 4), memcpy(to + 5, body, size);
  out->size += size + 5;
}

static void synchronize(struct outbox *out) { say(out, 'S', "", 0), out->awaited++; }

static void execute(struct outbox *out) { say(out, 'E', "\0\0\0\0", 5); }

static void prepare(struct outbox *out, const char *name, const char *text) {
  char body[2 * TEXT];
  size_t size = sprintf(body, "%s", name) + 1;
  size += sprintf(body + size, "%s", text) + 1;
  memcpy(body + size, "\0", 2);
  say(out, 'P', body, size + 2);
}

static void bind_values(struct asking *self, struct outbox *out, const char *name, int count) {
  char body[2 * TEXT] = {0};
  size_t size = 1 + sprintf(body + 1, "%s", name) + 1 + 2;
  body[size + 1] = count, size += 2;
  for (int at = 0; at < count; at++) {
    unsigned length = htonl(self->lengths[at]);
    memcpy(body + size, &length, 4), size += 4;
    memcpy(body + size, self->values[at], self->lengths[at]), size += self->lengths[at];
  }
  say(out, 'B', body, size + 2);
}

/* binds one of the fixed texts, which have no values */
static void bind_fixed(struct asking *self, int at, int which) {
  char name[2] = {'a' + which, 0};
  bind_values(self, &self->out[at], name, 0);
}

static void push(struct asking *self, int at) {
  if (self->out[at].size) put(self->session.links[at].socket, self->out[at].bytes, self->out[at].size);
  self->out[at].size = 0;
}

/* the statement of a text, with $n in place of its numbers, which are its values */
static struct statement *statement_of(struct asking *self, const char *text) {
  char found[TEXT];
  size_t size = 0;
  self->value_count = 0;
  for (const char *from = text; *from && size < TEXT - 8;) {
    const char *to = from + (*from == '-');
    while (*to >= '0' && *to <= '9') to++;
    if (from > text && from[-1] == ' ' && to > from && to[-1] != '-' && self->value_count < VALUES) {
      self->values[self->value_count] = from, self->lengths[self->value_count++] = to - from;
      size += sprintf(found + size, "$%d", self->value_count);
      from = to;
    } else if (*from == ';' && !from[1]) from++;
    else found[size++] = *from++;
  }
  found[size] = 0;
  for (int at = 0; at < self->statement_count; at++)
    if (strcmp(self->statements[at].text, found) == 0) return &self->statements[at];
  must(self->statement_count < STATEMENTS);
  struct statement *made = &self->statements[self->statement_count++];
  strcpy(made->text, found);
  return made;
}

/* a statement at a server, behind what it is to be sent, up to its end */
static void ask(struct asking *self, int at, struct statement *statement) {
  char name[8], described[9] = "S";
  sprintf(name, "s%d", (int)(statement - self->statements));
  if (!(statement->known >> at & 1)) {
    prepare(&self->out[at], name, statement->text);
    strcpy(described + 1, name);
    say(&self->out[at], 'D', described, strlen(described) + 1);
    statement->known |= 1 << at;
  }
  bind_values(self, &self->out[at], name, self->value_count);
  execute(&self->out[at]), synchronize(&self->out[at]);
}

/* whether the answer that is awaited next is no error, up to its ReadyForQuery. What it says is kept where a statement is given. */
static int hear(struct asking *self, int at, struct statement *kept) {
  for (int is_good = 1;;) {
    size_t size;
    char *found = message(&self->session.links[at], 1, &size);
    switch (found[0]) {
    case 'Z': return self->out[at].awaited--, is_good;
    case 'E': is_good = 0; if (kept) keep(&self->session.answer, found, size); break;
    case 'T': if (kept && size <= sizeof kept->columns) memcpy(kept->columns, found, kept->size = size); break;
    case '2': if (kept && kept->size) keep(&self->session.answer, kept->columns, kept->size); break;
    case 'C': case 'D': case 'I': if (kept) keep(&self->session.answer, found, size);
    }
  }
}

/* waits until the snapshot of a group is told, in front of the statement behind it */
static void hear_snapshot(struct asking *self, int at) {
  for (int bound = 0; bound < 2;) {
    size_t size;
    char *found = message(&self->session.links[at], 1, &size);
    must(found[0] != 'E');
    bound += found[0] == '2';
  }
}

/* the snapshot at a server, behind the end that it is still to be told of; the statement, where one is given, is in the same group */
static void snapshot(struct asking *self, int at, struct statement *first) {
  bind_fixed(self, at, self->is_owed ? CHAINS : BEGINS), execute(&self->out[at]), bind_fixed(self, at, LOOKS);
  if (!first) synchronize(&self->out[at]);
  else say(&self->out[at], 'H', "", 0), ask(self, at, first);
  push(self, at);
}

static void finish(struct session *session, int is_commit) {
  struct asking *self = (struct asking *)session;
  if (!self->session.is_live) return;
  self->is_owed = is_commit && !self->session.has_written;
  if (!self->is_owed) {
    if (is_commit) enter(1);
    for (int at = 0; at < servers; at++) {
      bind_fixed(self, at, is_commit ? COMMITS : ROLLS), execute(&self->out[at]), synchronize(&self->out[at]);
      push(self, at);
    }
    for (int at = 0; at < servers; at++) while (self->out[at].awaited) hear(self, at, NULL);
    if (is_commit) leave(1);
  }
  self->session.is_live = self->session.has_written = 0;
}

/* a statement that reads at the first server, or writes at all of them */
static void run(struct session *session, const char *text) {
  struct asking *self = (struct asking *)session;
  struct statement *statement = statement_of(self, text);
  int is_read = text[0] == 'S';
  if (self->session.is_live) ask(self, 0, statement), push(self, 0);
  else {
    enter(0);
    for (int at = 0; at < servers; at++) snapshot(self, at, at ? NULL : statement);
    for (int at = 1; at < servers; at++) must(hear(self, at, NULL));
    hear_snapshot(self, 0);
    leave(0);
    self->is_owed = 0;
  }
  int is_good = hear(self, 0, statement);
  self->session.is_live = 1, self->session.has_written |= !is_read;
  if (!is_read && is_good) {
    for (int at = 1; at < servers; at++) ask(self, at, statement), push(self, at);
    for (int at = 1; at < servers; at++) is_good &= hear(self, at, NULL);
  }
  settle(session, is_good);
}

/* a link, let in, that knows the fixed texts; what the first server says of its settings is kept for the client */
static void join(struct session *session, int at, const char *start, size_t size) {
  struct asking *self = (struct asking *)session;
  put(self->session.links[at].socket, start, size);
  for (char type = 0; type != 'Z';) {
    size_t length;
    char *found = message(&self->session.links[at], 1, &length);
    type = found[0];
    must(type != 'E');
    if (at == 0 && type != 'Z') keep(&self->session.answer, found, length);
  }
  for (int which = 0; which < FIXED; which++) prepare(&self->out[at], (char[]){'a' + which, 0}, fixed[which]);
  synchronize(&self->out[at]), push(self, at), must(hear(self, at, NULL));
}

int main(int count, char **words) {
  is_gated = 1;
  return take(count - 1, words + 1, sizeof(struct asking));
}
