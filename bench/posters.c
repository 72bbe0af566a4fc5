/* Connections that post side by side, for live.py: `posters PORT CONNECTIONS POSTS SIZE` posts documents of SIZE bytes under identifiers of their
   own to 127.0.0.1, each connection its next one once it has the reply to the one before. Prints the seconds that all took, and those that one
   post of a hundred passes. The status is 1 where a reply isn't 200, or a connection ends. */
#define _GNU_SOURCE
#include <arpa/inet.h>
#include <netinet/in.h>
#include <netinet/tcp.h>
#include <stdio.h>
#include <stdlib.h>
#include <string.h>
#include <sys/epoll.h>
#include <sys/socket.h>
#include <time.h>
#include <unistd.h>

enum { ROOM = 16384 };

struct link {
    int socket;
    size_t came, sent, size;
    double began;
    char reply[ROOM];
    char *post;
};

static double now(void) {
    struct timespec time;
    clock_gettime(CLOCK_MONOTONIC, &time);
    return time.tv_sec + time.tv_nsec / 1e9;
}

static void fail(const char *what) {
    perror(what);
    exit(1);
}

static size_t size;
static long next, posts, done;
static double *times;

/* Makes the next post of a link; 0 where there is none. */
static int make(struct link *link) {
    if (next == posts) return 0;
    int head = sprintf(link->post,
        "POST /as2 HTTP/1.1\r\nHost: 127.0.0.1:8080\r\nAS2-Version: 1.0\r\nAS2-From: Buyer\r\nAS2-To: Supplier\r\n"
        "Message-ID: <m%ld@x>\r\nContent-Type: application/edi-x12\r\nDisposition-Notification-To: a@x\r\n"
        "Disposition-Notification-Options: signed-receipt-micalg=optional, sha1\r\nContent-Length: %zu\r\n\r\n", next++, size);
    memset(link->post + head, 'U', size);
    link->size = head + size;
    link->sent = link->came = 0;
    link->began = now();
    return 1;
}

/* Writes as much of a post as the system takes. */
static void push(struct link *link) {
    while (link->sent < link->size) {
        ssize_t count = send(link->socket, link->post + link->sent, link->size - link->sent, MSG_NOSIGNAL | MSG_DONTWAIT);
        if (count <= 0) return;
        link->sent += count;
    }
}

/* Whether the reply is whole; a status other than 200 ends the program. */
static int is_whole(struct link *link) {
    link->reply[link->came] = 0;
    char *end = strstr(link->reply, "\r\n\r\n"), *length = strstr(link->reply, "\r\nContent-Length: ");
    if (!end || !length) return 0;
    if (strncmp(link->reply + 9, "200", 3)) fail(link->reply);
    return link->came >= (size_t)(end + 4 - link->reply) + strtoul(length + 18, NULL, 10);
}

/* Reads what came, and goes on with the next post where the reply is whole. */
static void pull(struct link *link) {
    ssize_t count = recv(link->socket, link->reply + link->came, ROOM - 1 - link->came, MSG_DONTWAIT);
    if (count == 0) fail("closed");
    if (count < 0) return;
    link->came += count;
    if (!is_whole(link)) return;
    times[done++] = now() - link->began;
    if (make(link)) push(link);
}

static int later(const void *one, const void *other) {
    double a = *(const double *)one, b = *(const double *)other;
    return (a > b) - (a < b);
}

int main(int count, char **words) {
    if (count != 5) return 2;
    struct sockaddr_in address = {.sin_family = AF_INET, .sin_port = htons(atoi(words[1])), .sin_addr.s_addr = htonl(INADDR_LOOPBACK)};
    int links = atoi(words[2]), poll = epoll_create1(0), one = 1;
    posts = atol(words[3]);
    size = strtoul(words[4], NULL, 10);
    times = calloc(posts, sizeof *times);
    struct link *all = calloc(links, sizeof *all);
    for (int at = 0; at < links; at++) {
        all[at].socket = socket(AF_INET, SOCK_STREAM, 0);
        if (connect(all[at].socket, (struct sockaddr *)&address, sizeof address)) fail("connect");
        setsockopt(all[at].socket, IPPROTO_TCP, TCP_NODELAY, &one, sizeof one);
        all[at].post = malloc(size + 1024);
        struct epoll_event event = {.events = EPOLLIN, .data.ptr = &all[at]};
        epoll_ctl(poll, EPOLL_CTL_ADD, all[at].socket, &event);
    }
    double began = now();
    for (int at = 0; at < links; at++)
        if (make(&all[at])) push(&all[at]);
    while (done < posts) {
        struct epoll_event events[256];
        int ready = epoll_wait(poll, events, 256, 1000);
        for (int at = 0; at < ready; at++) pull(events[at].data.ptr);
        for (int at = 0; at < links; at++) push(&all[at]);
    }
    double seconds = now() - began;
    qsort(times, posts, sizeof *times, later);
    printf("%f %f\n", seconds, times[posts * 99 / 100]);
    return 0;
}
