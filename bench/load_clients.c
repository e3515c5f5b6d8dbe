/* Clients on threads of their own, each with its requests in flight: requests a second, and how long an answer takes. They
   speak to `amserve listen`, or the same pattern to redis-server, or send whole transactions of three lines to replicas.
   Usage: load_clients lines|redis|whole PORT[,PORT..] CLIENTS REQUESTS IN_FLIGHT */
#include <arpa/inet.h>
#include <netinet/in.h>
#include <netinet/tcp.h>
#include <pthread.h>
#include <stdio.h>
#include <stdlib.h>
#include <string.h>
#include <sys/socket.h>
#include <time.h>
#include <unistd.h>

static int is_redis, is_whole, ports[9], port_count, requests, in_flight;

struct client { pthread_t thread; int number; double *took; int counted; };

static double now(void) {
    struct timespec t;
    clock_gettime(CLOCK_MONOTONIC, &t);
    return (double)t.tv_sec + (double)t.tv_nsec / 1e9;
}

static void fail(const char *text) {
    fprintf(stderr, "load_clients: %s\n", text);
    exit(1);
}

/* The i-th request of a client: transactions of fifty, half of them reads, over a thousand keys of its own. Redis has no
   transaction that answers as it goes, so a PING stands for its begin and its end. */
static int request(char *to, int client, int i) {
    int at = i % 50;
    char key[32];
    int length = sprintf(key, "k%d.%d", client, (i * 7919) % 1000);
    if (is_whole) {
        if (i % 3 == 1) return sprintf(to, "INS c%d.%d.%d x\n", (int)getpid(), client, i / 3);
        return sprintf(to, i % 3 ? "COMMIT\n" : "BEGIN\n");
    }
    int is_end = at == 0 || at == 49, is_read = at % 2;
    if (is_redis) {
        if (is_end) return sprintf(to, "*1\r\n$4\r\nPING\r\n");
        if (is_read) return sprintf(to, "*2\r\n$3\r\nGET\r\n$%d\r\n%s\r\n", length, key);
        return sprintf(to, "*3\r\n$3\r\nSET\r\n$%d\r\n%s\r\n$3\r\nxxx\r\n", length, key);
    }
    if (is_end) return sprintf(to, at ? "COMMIT\n" : "BEGIN\n");
    if (is_read) return sprintf(to, "GET %s\n", key);
    return sprintf(to, i < 20000 ? "INS %s xxx\n" : "REP %s xxx\n", key);
}

/* How many answers end in what came. One of Redis that begins with $ and a length has a second line. */
static int answers_in(const char *came, ssize_t count, int *at_start, int *has_more) {
    int answers = 0;
    for (ssize_t i = 0; i < count; i++) {
        if (*at_start && is_redis) *has_more = *has_more == 2 ? 0 : came[i] == '$';
        if (!*at_start && *has_more == 1 && came[i] == '-') *has_more = 0;
        if (*at_start && is_whole && came[i] == 'E') fail("a transaction didn't commit");
        *at_start = came[i] == '\n';
        if (!*at_start) continue;
        if (*has_more == 1) *has_more = 2;
        else answers++;
    }
    return answers;
}

static void *run(void *of) {
    struct client *me = of;
    int s = socket(AF_INET, SOCK_STREAM, 0), one = 1;
    struct sockaddr_in to = {.sin_family = AF_INET, .sin_port = htons((unsigned short)ports[me->number % port_count])};
    to.sin_addr.s_addr = htonl(INADDR_LOOPBACK);
    if (connect(s, (struct sockaddr *)&to, sizeof to)) fail("no connection");
    setsockopt(s, IPPROTO_TCP, TCP_NODELAY, &one, sizeof one);
    char out[65536], in[65536];
    int at_start = 1, has_more = 0;
    for (int sent = 0; sent < requests;) {
        int n = 0, count = requests - sent < in_flight ? requests - sent : in_flight;
        for (int i = 0; i < count; i++) n += request(out + n, me->number, sent + i);
        double begun = now();
        if (write(s, out, (size_t)n) != n) fail("not written");
        for (int left = count; left > 0;) {
            ssize_t got = read(s, in, sizeof in);
            if (got <= 0) fail("the server went away");
            left -= answers_in(in, got, &at_start, &has_more);
        }
        me->took[me->counted++] = now() - begun;
        sent += count;
    }
    const char *quit = is_redis ? "*1\r\n$4\r\nQUIT\r\n" : "QUIT\n";
    if (write(s, quit, strlen(quit)) != (ssize_t)strlen(quit)) fail("not written");
    while (read(s, in, sizeof in) > 0) {}
    close(s);
    return NULL;
}

static int by_size(const void *a, const void *b) {
    double x = *(const double *)a, y = *(const double *)b;
    return (x > y) - (x < y);
}

int main(int argc, char **argv) {
    if (argc != 6) fail("wants lines|redis|whole PORT[,PORT..] CLIENTS REQUESTS IN_FLIGHT");
    is_redis = !strcmp(argv[1], "redis");
    is_whole = !strcmp(argv[1], "whole");
    for (char *rest = argv[2]; rest && port_count < 9; rest = strchr(rest, ',')) {
        rest += *rest == ',';
        ports[port_count++] = atoi(rest);
    }
    int clients = atoi(argv[3]);
    requests = atoi(argv[4]) / clients;
    in_flight = atoi(argv[5]);
    struct client *all = calloc((size_t)clients, sizeof *all);
    double begun = now();
    for (int i = 0; i < clients; i++) {
        all[i].number = i;
        all[i].took = malloc(sizeof(double) * (size_t)(requests + 1));
        pthread_create(&all[i].thread, NULL, run, &all[i]);
    }
    for (int i = 0; i < clients; i++) pthread_join(all[i].thread, NULL);
    double seconds = now() - begun;
    size_t count = 0;
    double *took = malloc(sizeof(double) * (size_t)(requests + 1) * (size_t)clients);
    for (int i = 0; i < clients; i++)
        for (int j = 0; j < all[i].counted; j++) took[count++] = all[i].took[j];
    qsort(took, count, sizeof *took, by_size);
    printf("%d clients, %d in flight: %.0f requests a second, %.3f ms at the median, %.3f ms at 99 %%\n", clients, in_flight,
           requests * clients / seconds, took[count / 2] * 1e3, took[count * 99 / 100] * 1e3);
    return 0;
}
