/* An echo server: one thread, level-triggered epoll, one read and one write for each message. It is what the loopback gives a server
 * that does nothing.
 *
 *   echo            listens on a free port of 127.0.0.1 and prints "listening ADDRESS"
 */
#define _GNU_SOURCE
#include <arpa/inet.h>
#include <errno.h>
#include <netinet/in.h>
#include <netinet/tcp.h>
#include <stdio.h>
#include <stdlib.h>
#include <sys/epoll.h>
#include <sys/socket.h>
#include <unistd.h>

#define EVENTS 129

static void stop(const char *what) {
    perror(what);
    exit(1);
}

static int listen_somewhere(void) {
    struct sockaddr_in address = {.sin_family = AF_INET, .sin_addr.s_addr = htonl(INADDR_LOOPBACK)};
    socklen_t length = sizeof address;
    int listener = socket(AF_INET, SOCK_STREAM | SOCK_NONBLOCK, 0);
    if (listener < 0 || bind(listener, (struct sockaddr *)&address, sizeof address) || listen(listener, 256)) stop("listen");
    if (getsockname(listener, (struct sockaddr *)&address, &length)) stop("getsockname");
    printf("listening 127.0.0.1:%d\n", ntohs(address.sin_port));
    fflush(stdout);
    return listener;
}

static void watch(int poll, int socket) {
    struct epoll_event event = {.events = EPOLLIN, .data.fd = socket};
    if (epoll_ctl(poll, EPOLL_CTL_ADD, socket, &event)) stop("epoll_ctl");
}

static void accept_one(int poll, int listener) {
    int one = 1, socket = accept4(listener, NULL, NULL, SOCK_NONBLOCK);
    if (socket < 0) return;
    setsockopt(socket, IPPROTO_TCP, TCP_NODELAY, &one, sizeof one);
    watch(poll, socket);
}

/* Writes back what came. A peer that has gone, or that does not take its bytes, is closed. */
static void echo(int socket) {
    static char bytes[4096];
    ssize_t came = recv(socket, bytes, sizeof bytes, 0);
    if (came < 0 && errno == EAGAIN) return;
    if (came <= 0 || send(socket, bytes, (size_t)came, MSG_NOSIGNAL) != came) close(socket);
}

int main(void) {
    struct epoll_event events[EVENTS];
    int poll = epoll_create1(0), listener = listen_somewhere();
    if (poll < 0) stop("epoll_create1");
    watch(poll, listener);
    for (;;) {
        int count = epoll_wait(poll, events, EVENTS, -1);
        for (int i = 0; i < count; i++) {
            if (events[i].data.fd == listener) accept_one(poll, listener);
            else echo(events[i].data.fd);
        }
    }
}
