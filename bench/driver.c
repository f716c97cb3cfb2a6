/* Drives clients that are logged in already, for some seconds, and prints how many trips or rounds a second
 * there were:
 *   driver ping SECONDS FD..    each client has one Ping under way at any time
 *   driver round SECONDS FD..   the first client asks for one save of all after the other
 *   driver echo SECONDS COUNT   as ping, against a bare process that gives back what it reads */
#include <signal.h>
#include <stdio.h>
#include <stdlib.h>
#include <string.h>
#include <sys/epoll.h>
#include <sys/socket.h>
#include <time.h>
#include <unistd.h>

#define MOST 128
enum { SAVE = 3, REQUEST = 4, SAVED = 8, COMPLETE = 18, ANSWER = 10 };

static const unsigned char ping[8] = {0, 9};
static const unsigned char saved[8] = {1, SAVED, 1};
static const unsigned char request[16] = {1, REQUEST, 0, 0, 1, 0, 0, 0, 1, 0, 0, 0, 1};

struct client {
    int fd;
    size_t held;
    unsigned char bytes[4096];
};

static struct client clients[MOST];
static int count;
static long done;

static double now(void)
{
    struct timespec time;
    clock_gettime(CLOCK_MONOTONIC, &time);
    return (double)time.tv_sec + 1e-9 * (double)time.tv_nsec;
}

static void say(int fd, const void *bytes, size_t size)
{
    if (write(fd, bytes, size) != (ssize_t)size) {
        perror("driver: a write");
        exit(1);
    }
}

static void answer(struct client *client, int minor)
{
    if (minor == ANSWER || minor == 9) {
        done++;
        say(client->fd, ping, sizeof ping);
    } else if (minor == SAVE) {
        say(client->fd, saved, sizeof saved);
    } else if (minor == COMPLETE && client == clients) {
        done++;
        say(client->fd, request, sizeof request);
    }
}

/* Reads what is there and answers each whole frame. */
static void hear(struct client *client)
{
    ssize_t got = read(client->fd, client->bytes + client->held, sizeof client->bytes - client->held);
    if (got <= 0) {
        fputs("driver: the other side closed\n", stderr);
        exit(1);
    }
    client->held += (size_t)got;
    size_t at = 0;
    while (client->held - at >= 8) {
        size_t size = 8 + 8 * ((size_t)client->bytes[at + 4] + 256 * (size_t)client->bytes[at + 5]);
        if (client->held - at < size)
            break;
        answer(client, client->bytes[at + 1]);
        at += size;
    }
    client->held -= at;
    memmove(client->bytes, client->bytes + at, client->held);
}

static int watched(void)
{
    int poller = epoll_create1(EPOLL_CLOEXEC);
    for (int at = 0; at < count; at++) {
        struct epoll_event event = {EPOLLIN, {.ptr = &clients[at]}};
        epoll_ctl(poller, EPOLL_CTL_ADD, clients[at].fd, &event);
    }
    return poller;
}

static void drive(double seconds)
{
    struct epoll_event found[MOST];
    int poller = watched();
    double begun = now(), passed = 0;
    while (passed < seconds) {
        int ready = epoll_wait(poller, found, MOST, 1000);
        for (int at = 0; at < ready; at++)
            hear(found[at].data.ptr);
        passed = now() - begun;
    }
    printf("%.1f\n", (double)done / passed);
}

static void give_back(int *fds)
{
    char bytes[4096];
    struct epoll_event found[MOST];
    int poller = epoll_create1(0);
    for (int at = 0; at < count; at++) {
        struct epoll_event event = {EPOLLIN, {.fd = fds[at]}};
        epoll_ctl(poller, EPOLL_CTL_ADD, fds[at], &event);
    }
    for (;;) {
        int ready = epoll_wait(poller, found, MOST, -1);
        for (int at = 0; at < ready; at++) {
            ssize_t got = read(found[at].data.fd, bytes, sizeof bytes);
            if (got <= 0)
                _exit(0);
            say(found[at].data.fd, bytes, (size_t)got);
        }
    }
}

static pid_t start_echo(int wanted)
{
    int theirs[MOST], pair[2];
    for (count = 0; count < wanted; count++) {
        if (socketpair(AF_UNIX, SOCK_STREAM, 0, pair))
            exit(1);
        clients[count].fd = pair[0];
        theirs[count] = pair[1];
    }
    pid_t child = fork();
    if (child == 0)
        give_back(theirs);
    return child;
}

int main(int words, char **word)
{
    if (words < 4 || words - 3 > MOST)
        return 2;
    pid_t child = 0;
    if (!strcmp(word[1], "echo"))
        child = start_echo(atoi(word[3]));
    else
        for (; count < words - 3; count++)
            clients[count].fd = atoi(word[count + 3]);
    if (!strcmp(word[1], "round"))
        say(clients[0].fd, request, sizeof request);
    else
        for (int at = 0; at < count; at++)
            say(clients[at].fd, ping, sizeof ping);
    drive(atof(word[2]));
    if (child)
        kill(child, SIGKILL);
    return 0;
}
