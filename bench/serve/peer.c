/* What a server of one file costs at least, measured beside the real ones. One thread, epoll by edges, nothing parsed:
 * each LENGTH bytes that come, whatever they are, are one request for FILE.
 *
 *     peer floor  PORT LENGTH FILE STAYS     head and content lie in memory and are sent by one call
 *     peer pieces PORT LENGTH FILE STAYS     FILE is open; the head and the content go out in pieces of 16 KiB, each one read
 *                                            and one send: what a server does that uses no sendfile and keeps no content
 *
 * STAYS is 1 where a connection stays open after an answer, and 0 where it is closed. It listens on 127.0.0.1 until it is killed.
 */
#define _GNU_SOURCE
#include <arpa/inet.h>
#include <errno.h>
#include <fcntl.h>
#include <netinet/in.h>
#include <netinet/tcp.h>
#include <signal.h>
#include <stdio.h>
#include <stdlib.h>
#include <string.h>
#include <sys/epoll.h>
#include <sys/socket.h>
#include <sys/stat.h>
#include <unistd.h>

enum { LINKS = 16384, EVENTS = 1024, PIECE = 16384, INPUT = 16384 };

struct link {
    size_t unread;  /* bytes of a request that isn't whole */
    long owed;      /* answers that are still owed */
    size_t sent;    /* bytes of the current answer that are sent */
};

static struct link links[LINKS];
static char input[INPUT], piece[PIECE], head[512];
static char *answer; /* head and content, for `floor` */
static size_t head_size, answer_size, length;
static int file, set, stays, in_pieces;

static void must(int holds, const char *what) {
    if (!holds) {
        perror(what);
        exit(1);
    }
}

/* The next bytes of an answer from a place on: where they lie, and how many. */
static size_t next_bytes(size_t from, const char **bytes) {
    if (!in_pieces) {
        *bytes = answer + from;
        return answer_size - from;
    }
    size_t have = 0, place;
    if (from < head_size) {
        have = head_size - from;
        memcpy(piece, head + from, have);
        place = 0;
    } else {
        place = from - head_size;
    }
    ssize_t got = pread(file, piece + have, PIECE - have, (off_t)place);
    must(got >= 0, "pread");
    *bytes = piece;
    return have + (size_t)got;
}

/* Sends what is owed, as far as it goes. Whether the link lives on. */
static int send_owed(int fd) {
    struct link *link = &links[fd];
    while (link->owed > 0) {
        const char *bytes;
        size_t size = next_bytes(link->sent, &bytes);
        ssize_t sent = send(fd, bytes, size, MSG_NOSIGNAL);
        if (sent < 0)
            return errno == EAGAIN;
        link->sent += (size_t)sent;
        if (link->sent == answer_size) {
            link->sent = 0;
            link->owed--;
            if (!stays)
                return 0;
        }
    }
    return 1;
}

/* All the owed answers of a pipeline in one send, as long as they fit: what a server does that collects answers. */
static int send_collected(int fd) {
    struct link *link = &links[fd];
    static char all[16 * 4096];
    while (link->owed > 1 && link->sent == 0 && answer_size * 2 <= sizeof all) {
        size_t count = sizeof all / answer_size;
        if (count > (size_t)link->owed)
            count = (size_t)link->owed;
        for (size_t k = 0; k < count; k++)
            memcpy(all + k * answer_size, answer, answer_size);
        ssize_t sent = send(fd, all, count * answer_size, MSG_NOSIGNAL);
        if (sent < 0)
            return errno == EAGAIN;
        link->owed -= sent / (ssize_t)answer_size;
        link->sent = (size_t)sent % answer_size;
    }
    return send_owed(fd);
}

/* Takes what came and answers it. Whether the link lives on. */
static int serve(int fd) {
    struct link *link = &links[fd];
    for (;;) {
        ssize_t got = recv(fd, input, INPUT, 0);
        if (got == 0)
            return 0;
        if (got < 0)
            return errno == EAGAIN && send_owed(fd);
        link->unread += (size_t)got;
        link->owed += (long)(link->unread / length);
        link->unread %= length;
        if (!(in_pieces ? send_owed(fd) : send_collected(fd)))
            return 0;
        if (got < INPUT)
            return 1;
    }
}

static void take_links(int door) {
    for (;;) {
        int fd = accept4(door, 0, 0, SOCK_NONBLOCK | SOCK_CLOEXEC);
        if (fd < 0)
            return;
        if (fd >= LINKS) {
            close(fd);
            continue;
        }
        int one = 1;
        setsockopt(fd, IPPROTO_TCP, TCP_NODELAY, &one, sizeof one);
        links[fd] = (struct link){0};
        struct epoll_event event = {.events = EPOLLIN | EPOLLOUT | EPOLLET | EPOLLRDHUP, .data.fd = fd};
        must(epoll_ctl(set, EPOLL_CTL_ADD, fd, &event) == 0, "epoll_ctl");
    }
}

int main(int count, char **words) {
    if (count != 6)
        return 2;
    in_pieces = strcmp(words[1], "pieces") == 0;
    length = (size_t)atol(words[3]);
    stays = atoi(words[5]);
    struct stat about;
    file = open(words[4], O_RDONLY | O_CLOEXEC);
    must(file >= 0 && fstat(file, &about) == 0 && length > 0, words[4]);
    head_size = (size_t)snprintf(head, sizeof head,
        "HTTP/1.1 200 OK\r\nDate: Tue, 01 Dec 2026 20:00:00 GMT\r\nServer: warp-profile\r\n"
        "Content-Type: text/plain; charset=utf-8\r\nContent-Length: %ld\r\n%s\r\n",
        (long)about.st_size, stays ? "" : "Connection: close\r\n");
    answer_size = head_size + (size_t)about.st_size;
    answer = malloc(answer_size);
    must(answer != 0, "malloc");
    memcpy(answer, head, head_size);
    must(pread(file, answer + head_size, (size_t)about.st_size, 0) == about.st_size, "pread");

    int door = socket(AF_INET, SOCK_STREAM | SOCK_NONBLOCK | SOCK_CLOEXEC, 0), one = 1;
    struct sockaddr_in at = {.sin_family = AF_INET, .sin_port = htons((unsigned short)atoi(words[2])), .sin_addr.s_addr = htonl(INADDR_LOOPBACK)};
    setsockopt(door, SOL_SOCKET, SO_REUSEADDR, &one, sizeof one);
    must(bind(door, (struct sockaddr *)&at, sizeof at) == 0 && listen(door, 4096) == 0, "listen");
    set = epoll_create1(EPOLL_CLOEXEC);
    struct epoll_event event = {.events = EPOLLIN, .data.fd = door}, events[EVENTS];
    must(epoll_ctl(set, EPOLL_CTL_ADD, door, &event) == 0, "epoll_ctl");
    for (;;) {
        int due = epoll_wait(set, events, EVENTS, -1);
        for (int k = 0; k < due; k++) {
            int fd = events[k].data.fd;
            if (fd == door)
                take_links(door);
            else if (!((events[k].events & EPOLLIN) ? serve(fd) : send_owed(fd)))
                close(fd);
        }
    }
}
