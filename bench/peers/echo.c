/* usage: echo

   A peer: prints its port, and sends back what it gets. When it is told to end, by SIGTERM, it prints how many packets came, and
   the seconds from the first to the last one. */
#include <arpa/inet.h>
#include <signal.h>
#include <stdio.h>
#include <stdlib.h>
#include <sys/socket.h>
#include <time.h>

static volatile sig_atomic_t is_over;

static void end(int signal)
{
    (void)signal;
    is_over = 1;
}

static double seconds(void)
{
    struct timespec t;
    clock_gettime(CLOCK_MONOTONIC, &t);
    return (double)t.tv_sec + 1e-9 * (double)t.tv_nsec;
}

static int open_socket(void)
{
    struct sockaddr_in at = {.sin_family = AF_INET, .sin_addr.s_addr = htonl(INADDR_LOOPBACK)};
    socklen_t len = sizeof at;
    int sock = socket(AF_INET, SOCK_DGRAM, 0);
    if (sock < 0 || bind(sock, (struct sockaddr *)&at, len) || getsockname(sock, (struct sockaddr *)&at, &len)) {
        perror("echo");
        exit(1);
    }
    printf("%d\n", ntohs(at.sin_port));
    fflush(stdout);
    return sock;
}

/* What is awaited when the signal comes is not awaited any more. */
static void listen_for_the_end(void)
{
    struct sigaction action = {.sa_handler = end};
    sigaction(SIGTERM, &action, NULL);
}

int main(void)
{
    static char bytes[65536];
    double first = 0, last = 0;
    long count = 0;
    listen_for_the_end();
    int sock = open_socket();
    while (!is_over) {
        struct sockaddr_in from;
        socklen_t from_len = sizeof from;
        ssize_t len = recvfrom(sock, bytes, sizeof bytes, 0, (struct sockaddr *)&from, &from_len);
        if (len < 0) {
            continue;
        }
        last = seconds();
        first = count++ == 0 ? last : first;
        sendto(sock, bytes, (size_t)len, 0, (struct sockaddr *)&from, from_len);
    }
    printf("%ld %.6f\n", count, last - first);
    return 0;
}
