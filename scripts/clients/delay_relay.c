/* delay_relay MICROSECONDS PORT:SERVER..: gives each byte on so much later, both ways, between whoever connects to a port and the server
   at the port behind it, so that servers on one machine are as far away as others are over a network. */
#define _GNU_SOURCE
#include <netinet/in.h>
#include <netinet/tcp.h>
#include <stdio.h>
#include <stdlib.h>
#include <string.h>
#include <sys/epoll.h>
#include <sys/prctl.h>
#include <sys/socket.h>
#include <time.h>
#include <unistd.h>

/* one end of a connection, or a door with the port that lies behind it */
struct end {
  int socket, is_door, target;
  struct end *other;
};

/* bytes that are due at an end at a moment in nanoseconds; none at all are the end of what is sent */
struct piece {
  long due;
  struct end *to;
  size_t size;
  struct piece *next;
  char bytes[];
};

static int polled;
static struct piece *first, *last;

static long now(void) {
  struct timespec time;
  clock_gettime(CLOCK_MONOTONIC, &time);
  return time.tv_sec * 1000000000L + time.tv_nsec;
}

static struct sockaddr_in place(int port) {
  return (struct sockaddr_in){.sin_family = AF_INET, .sin_port = htons(port), .sin_addr.s_addr = htonl(INADDR_LOOPBACK)};
}

static void watch(struct end *end) {
  epoll_ctl(polled, EPOLL_CTL_ADD, end->socket, &(struct epoll_event){.events = EPOLLIN, .data.ptr = end});
}

static int open_door(char *word) {
  struct sockaddr_in at = place(atoi(word));
  struct end *door = calloc(1, sizeof *door);
  *door = (struct end){.socket = socket(AF_INET, SOCK_STREAM, 0), .is_door = 1, .target = atoi(strchr(word, ':') + 1)};
  setsockopt(door->socket, SOL_SOCKET, SO_REUSEADDR, &(int){1}, sizeof(int));
  if (bind(door->socket, (void *)&at, sizeof at) || listen(door->socket, 128)) return 0;
  watch(door);
  return 1;
}

static void let_in(struct end *door) {
  struct sockaddr_in at = place(door->target);
  struct end *ends = calloc(2, sizeof *ends);
  ends[0] = (struct end){.socket = accept(door->socket, 0, 0), .other = &ends[1]};
  ends[1] = (struct end){.socket = socket(AF_INET, SOCK_STREAM, 0), .other = &ends[0]};
  if (connect(ends[1].socket, (void *)&at, sizeof at)) {
    close(ends[0].socket), close(ends[1].socket), free(ends);
    return;
  }
  for (int side = 0; side < 2; side++) {
    setsockopt(ends[side].socket, IPPROTO_TCP, TCP_NODELAY, &(int){1}, sizeof(int));
    watch(&ends[side]);
  }
}

static void take(struct end *end, long delay) {
  char bytes[65536];
  ssize_t size = recv(end->socket, bytes, sizeof bytes, MSG_DONTWAIT);
  if (size <= 0) epoll_ctl(polled, EPOLL_CTL_DEL, end->socket, 0), size = 0;
  struct piece *piece = malloc(sizeof *piece + size);
  *piece = (struct piece){.due = now() + delay, .to = end->other, .size = size};
  memcpy(piece->bytes, bytes, size);
  if (last) last->next = piece;
  else first = piece;
  last = piece;
}

static void give(void) {
  for (long moment = now(); first && first->due <= moment;) {
    struct piece *piece = first;
    if (!piece->size) shutdown(piece->to->socket, SHUT_WR);
    else if (send(piece->to->socket, piece->bytes, piece->size, MSG_NOSIGNAL) < 0) shutdown(piece->to->socket, SHUT_RDWR);
    if (!(first = piece->next)) last = 0;
    free(piece);
  }
}

int main(int count, char **words) {
  polled = epoll_create1(0);
  prctl(PR_SET_TIMERSLACK, 1);
  for (int at = 2; at < count; at++) if (!open_door(words[at])) return 1;
  for (struct epoll_event events[64];;) {
    long left = first ? first->due - now() : -1;
    if (first && left < 0) left = 0;
    int found = epoll_pwait2(polled, events, 64, first ? &(struct timespec){left / 1000000000, left % 1000000000} : 0, 0);
    for (int at = 0; at < found; at++) {
      struct end *end = events[at].data.ptr;
      if (end->is_door) let_in(end);
      else take(end, atol(words[1]) * 1000);
    }
    give();
  }
}
