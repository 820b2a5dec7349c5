/* Asks one request again and again, and prints requests a second over all clients, and microseconds of a reply in the middle.

     costs PLACE REQUEST CLIENTS WINDOW REQUESTS

   PLACE is a socket's path, or PORT:FOLDER for TLS on this machine, with the certificates of FOLDER. REQUEST is put or job. Client k
   is the tenant ck; it has WINDOW requests on the way. The clock doesn't count the greeting. */
#include <arpa/inet.h>
#include <netinet/tcp.h>
#include <openssl/ssl.h>
#include <pthread.h>
#include <stdio.h>
#include <stdlib.h>
#include <string.h>
#include <sys/socket.h>
#include <sys/un.h>
#include <time.h>
#include <unistd.h>

typedef struct { int socket; SSL *ssl; } Link;

static const char PUT[] = "[\"put\",\"a\",0,[1,2,3]]\n";
static const char JOB[] = "[\"run\",[\"program\",[[\"a\",0,3]],[[\"task\",[[\"out\",[\"a\",0,1]]],[[\"set\",[\"c\",\"a\",0],7]]],"
                          "[\"task\",[[\"in\",[\"a\",0,1]],[\"out\",[\"a\",1,1]]],[[\"set\",[\"c\",\"a\",1],[\"+\",[\"c\",\"a\",0],1]]]],"
                          "[\"wait\"]]]]\n";
static const char *place, *request;
static int window, requests;
static pthread_barrier_t begin;
static float *took[16];

static void fail(const char *why) {
  fprintf(stderr, "costs: %s\n", why);
  exit(1);
}

static double now(void) {
  struct timespec time;
  clock_gettime(CLOCK_MONOTONIC, &time);
  return time.tv_sec + time.tv_nsec / 1e9;
}

static SSL *with_tls(int socket, const char *folder, const char *tenant) {
  char path[300];
  SSL_CTX *context = SSL_CTX_new(TLS_client_method());
  snprintf(path, sizeof path, "%s/%s.pem", folder, tenant);
  if (SSL_CTX_use_certificate_chain_file(context, path) != 1) fail(path);
  if (SSL_CTX_use_PrivateKey_file(context, path, SSL_FILETYPE_PEM) != 1) fail(path);
  snprintf(path, sizeof path, "%s/ca.pem", folder);
  SSL_CTX_load_verify_locations(context, path, NULL);
  SSL_CTX_set_verify(context, SSL_VERIFY_PEER, NULL);
  SSL *ssl = SSL_new(context);
  SSL_set_fd(ssl, socket);
  SSL_set1_host(ssl, "front.example");
  if (SSL_connect(ssl) != 1) fail("no TLS");
  return ssl;
}

static Link linked(const char *tenant) {
  Link link = {-1, NULL};
  const char *folder = strchr(place, ':');
  if (folder == NULL) {
    struct sockaddr_un address = {.sun_family = AF_UNIX};
    strncpy(address.sun_path, place, sizeof address.sun_path - 1);
    link.socket = socket(AF_UNIX, SOCK_STREAM, 0);
    if (connect(link.socket, (struct sockaddr *)&address, sizeof address) < 0) fail("no connection");
    return link;
  }
  struct sockaddr_in address = {.sin_family = AF_INET, .sin_port = htons(atoi(place))};
  inet_pton(AF_INET, "127.0.0.1", &address.sin_addr);
  link.socket = socket(AF_INET, SOCK_STREAM, 0);
  if (connect(link.socket, (struct sockaddr *)&address, sizeof address) < 0) fail("no connection");
  int yes = 1;
  setsockopt(link.socket, IPPROTO_TCP, TCP_NODELAY, &yes, sizeof yes);
  link.ssl = with_tls(link.socket, folder + 1, tenant);
  return link;
}

static void say(Link link, const char *text, size_t size) {
  while (size > 0) {
    ssize_t sent = link.ssl ? SSL_write(link.ssl, text, size) : write(link.socket, text, size);
    if (sent <= 0) fail("a write failed");
    text += sent, size -= sent;
  }
}

/* Reads until so many replies have ended, or more; how many. */
static int hear(Link link, int least) {
  char room[1 << 16];
  int ended = 0;
  while (ended < least) {
    ssize_t got = link.ssl ? SSL_read(link.ssl, room, sizeof room) : read(link.socket, room, sizeof room);
    if (got <= 0) fail("the session ended");
    if (memmem(room, got, "\"err\"", 5)) fail("a request was refused");
    for (ssize_t at = 0; at < got; at++) ended += room[at] == '\n';
  }
  return ended;
}

static void *client(void *which) {
  long k = (long)which;
  size_t size = strlen(request);
  char tenant[20], opening[200], *many = malloc(size * window);
  for (int at = 0; at < window; at++) memcpy(many + at * size, request, size);
  snprintf(tenant, sizeof tenant, "c%ld", k);
  Link link = linked(tenant);
  snprintf(opening, sizeof opening, "[\"hello\",\"%s\"]\n[\"new\",\"a\",3]\n[\"put\",\"a\",0,[1,2,3]]\n", tenant);
  say(link, opening, strlen(opening));
  hear(link, 3);
  pthread_barrier_wait(&begin);
  for (int sent = 0, heard = 0, round = 0; heard < requests; round++) {
    int more = window - (sent - heard) < requests - sent ? window - (sent - heard) : requests - sent;
    double at = now();
    say(link, many, size * more);
    sent += more;
    heard += hear(link, 1);
    took[k][round] = (now() - at) * 1e6;
  }
  return NULL;
}

static int by_time(const void *a, const void *b) {
  float x = *(const float *)a, y = *(const float *)b;
  return x < y ? -1 : x > y;
}

int main(int count, char **words) {
  if (count != 6) fail("which words?");
  place = words[1], request = strcmp(words[2], "put") == 0 ? PUT : JOB;
  int clients = atoi(words[3]);
  window = atoi(words[4]), requests = atoi(words[5]);
  if (clients < 1 || clients > 16) fail("from 1 to 16 clients");
  pthread_t threads[16];
  pthread_barrier_init(&begin, NULL, clients + 1);
  for (long k = 0; k < clients; k++) {
    took[k] = calloc(requests, sizeof(float));
    pthread_create(&threads[k], NULL, client, (void *)k);
  }
  pthread_barrier_wait(&begin);
  double at = now();
  for (int k = 0; k < clients; k++) pthread_join(threads[k], NULL);
  double seconds = now() - at;
  qsort(took[0], requests, sizeof(float), by_time);
  printf("%.0f %.0f\n", clients * (double)requests / seconds, took[0][requests / 2]);
}
