/* The words of the programs that send a stream. */
#include "stream.h"
#include <stdio.h>
#include <stdlib.h>

void stop(const char *why)
{
    fprintf(stderr, "stream: %s\n", why);
    exit(1);
}

struct route read_route(char **words)
{
    struct route route;
    route.server_port = atoi(words[0]);
    route.peer_port = atoi(words[1]);
    route.count = atol(words[2]);
    if (route.server_port < 1 || route.peer_port < 1 || route.count < 1) {
        stop("usage: PROGRAM SERVER_PORT PEER_PORT COUNT");
    }
    return route;
}
