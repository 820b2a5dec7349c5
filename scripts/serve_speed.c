/* Asks one request again and again over a Unix socket, and counts the replies.

   serve_speed SOCKET WHAT CLIENTS WINDOW CONNECTIONS REQUESTS

   CLIENTS threads each hold CONNECTIONS sessions, one after another, with REQUESTS requests each, of which
   up to WINDOW are on the way at a time. WHAT is one of the rows below: how a session begins, the request, and
   how many line feeds each reply has. It prints how many requests were answered in a second, over all clients,
   and fails where a request is refused. */
#include <pthread.h>
#include <stdio.h>
#include <stdlib.h>
#include <string.h>
#include <sys/socket.h>
#include <sys/un.h>
#include <time.h>
#include <unistd.h>

struct row {
  const char *name;
  const char *greeting; /* %d: the client, %d: its session */
  int greeting_ends;
  const char *request;
  int reply_ends;
};

#define OPENING "[\"hello\",\"c%d_%d\"]\n[\"new\",\"a\",3]\n[\"put\",\"a\",0,[1,2,3]]\n"

static const struct row rows[] = {
    {"put", OPENING, 3, "[\"put\",\"a\",0,[1,2,3]]\n", 1},
    {"get", OPENING, 3, "[\"get\",\"a\",0,3]\n", 1},
    {"job", OPENING, 3,
     "[\"run\",[\"program\",[[\"a\",0,3]],[[\"task\",[[\"out\",[\"a\",0,1]]],[[\"set\",[\"c\",\"a\",0],7]]],"
     "[\"task\",[[\"in\",[\"a\",0,1]],[\"out\",[\"a\",1,1]]],[[\"set\",[\"c\",\"a\",1],[\"+\",[\"c\",\"a\",0],1]]]],"
     "[\"wait\"]]]]\n",
     1},
    {"SET", "SET k%d_%d 1,2,3\r\n", 1, "SET k 1,2,3\r\n", 1},
    {"GET", "SET k%d_%d 1,2,3\r\nSET k 1,2,3\r\n", 2, "GET k\r\n", 2},
    {"EVAL", "DEL l%d_%d l\r\nRPUSH l 1 2 3\r\n", 2,
     "*4\r\n$4\r\nEVAL\r\n$132\r\n"
     "redis.call('LSET',KEYS[1],0,7) redis.call('LSET',KEYS[1],1,redis.call('LINDEX',KEYS[1],0)+1) "
     "return redis.call('LRANGE',KEYS[1],0,2)\r\n$1\r\n1\r\n$1\r\nl\r\n",
     7},
};

static const char *path;
static const struct row *row;
static int window, connections, requests;

static void fail(const char *why) {
  fprintf(stderr, "serve_speed: %s\n", why);
  exit(1);
}

static int connected(void) {
  struct sockaddr_un address = {.sun_family = AF_UNIX};
  int at = socket(AF_UNIX, SOCK_STREAM, 0);
  strncpy(address.sun_path, path, sizeof address.sun_path - 1);
  if (at < 0 || connect(at, (struct sockaddr *)&address, sizeof address) < 0) fail("no connection");
  return at;
}

static void send_all(int to, const char *bytes, size_t length) {
  while (length > 0) {
    ssize_t count = write(to, bytes, length);
    if (count <= 0) fail("a write failed");
    bytes += count, length -= count;
  }
}

/* Reads until so many line feeds have come, at least one, and answers how many came. */
static int read_ends(int from, int at_least) {
  static __thread char room[1 << 16];
  int ends = 0;
  while (ends < at_least) {
    ssize_t count = read(from, room, sizeof room);
    if (count <= 0) fail("the input ended");
    if (memmem(room, count, "\"err\"", 5) || room[0] == '-') fail("a request was refused");
    for (ssize_t k = 0; k < count; k++) ends += room[k] == '\n';
  }
  return ends;
}

static void session(int client, int number) {
  char greeting[1000];
  int at = connected(), length = snprintf(greeting, sizeof greeting, row->greeting, client, number);
  size_t size = strlen(row->request);
  char *batch = malloc(size * window);
  for (int k = 0; k < window; k++) memcpy(batch + k * size, row->request, size);
  send_all(at, greeting, length);
  read_ends(at, row->greeting_ends);
  int sent = 0, ends = 0;
  while (ends < requests * row->reply_ends) {
    int room = window - (sent - ends / row->reply_ends);
    if (room > requests - sent) room = requests - sent;
    if (room > 0) send_all(at, batch, size * room), sent += room;
    ends += read_ends(at, 1);
  }
  if (ends != requests * row->reply_ends) fail("other replies");
  close(at);
  free(batch);
}

static void *sessions(void *client) {
  for (int number = 0; number < connections; number++) session((int)(long)client, number);
  return NULL;
}

int main(int count, char **words) {
  if (count != 7) fail("SOCKET WHAT CLIENTS WINDOW CONNECTIONS REQUESTS");
  path = words[1];
  int clients = atoi(words[3]);
  window = atoi(words[4]), connections = atoi(words[5]), requests = atoi(words[6]);
  for (size_t k = 0; k < sizeof rows / sizeof *rows; k++)
    if (strcmp(words[2], rows[k].name) == 0) row = &rows[k];
  if (!row || clients < 1 || clients > 64) fail("which request?");
  pthread_t threads[64];
  struct timespec first, last;
  clock_gettime(CLOCK_MONOTONIC, &first);
  for (long k = 0; k < clients; k++) pthread_create(&threads[k], NULL, sessions, (void *)k);
  for (long k = 0; k < clients; k++) pthread_join(threads[k], NULL);
  clock_gettime(CLOCK_MONOTONIC, &last);
  double seconds = (last.tv_sec - first.tv_sec) + (last.tv_nsec - first.tv_nsec) / 1e9;
  printf("%.0f\n", (double)clients * connections * requests / seconds);
  return 0;
}
