/* What the programs share that send one stream through a server: how many packets of it are on the way at most, and how long one
   is awaited before it counts as lost. pion/stream.go has the same numbers. */
#ifndef STREAM_H
#define STREAM_H

enum { WINDOW = 32, LOST_AFTER_MS = 100, STREAM_PAYLOAD = 1200 };

/* Where it goes: all on 127.0.0.1. */
struct route {
    int server_port, peer_port;
    long count;
};

/* Reads `SERVER_PORT PEER_PORT COUNT`. */
struct route read_route(char **words);

/* Ends the program. */
void stop(const char *why);

#endif
