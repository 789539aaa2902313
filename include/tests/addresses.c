/* Tests the header's functions for addresses: what they compare, and that an address is the same as a sockaddr and back. The
   sockaddrs are made by inet_pton and htons, and not by the header. */
#include "yarrowdoor.h"

#include <arpa/inet.h>
#include <stdio.h>

static int failures;

static void expect(int holds, const char *what)
{
    if (!holds) {
        printf("addresses: %s\n", what);
        failures++;
    }
}

/* An IPv6 address in which no two fields are the same, and none is 0. */
static yarrowdoor_address ipv6_address(void)
{
    yarrowdoor_address address;
    memset(&address, 0, sizeof address);
    inet_pton(AF_INET6, "fe80::1:203:405", address.ip);
    address.flow = htonl(0x54321);
    address.scope = 7;
    address.port = 0x1234;
    address.family = YARROWDOOR_IPV6;
    return address;
}

/* The same, as a program without the header has it. */
static struct sockaddr_in6 ipv6_socket(void)
{
    struct sockaddr_in6 in;
    memset(&in, 0, sizeof in);
    in.sin6_family = AF_INET6;
    inet_pton(AF_INET6, "fe80::1:203:405", &in.sin6_addr);
    in.sin6_flowinfo = htonl(0x54321);
    in.sin6_scope_id = 7;
    in.sin6_port = htons(0x1234);
    return in;
}

static void compare_addresses(void)
{
    const yarrowdoor_address base = ipv6_address();
    yarrowdoor_address other = base;
    size_t place;
    expect(yarrowdoor_is_same_address(&base, &other), "an address is the same as its copy");
    for (place = 0; place < sizeof base.ip; place++) {
        other = base;
        other.ip[place] ^= 1;
        expect(!yarrowdoor_is_same_address(&base, &other), "each byte of the address counts");
    }
    other = base;
    other.flow++;
    expect(!yarrowdoor_is_same_address(&base, &other), "the flow counts");
    other = base;
    other.scope++;
    expect(!yarrowdoor_is_same_address(&base, &other), "the scope counts");
    other = base;
    other.port++;
    expect(!yarrowdoor_is_same_address(&base, &other), "the port counts");
    other = base;
    other.family = YARROWDOOR_IPV4;
    expect(!yarrowdoor_is_same_address(&base, &other), "the family counts");
}

static void convert_ipv4(void)
{
    const yarrowdoor_address address = yarrowdoor_ipv4(192, 0, 2, 33, 0x1234);
    struct sockaddr_storage found;
    struct sockaddr_in in, back;
    yarrowdoor_address read;
    memset(&in, 0, sizeof in);
    in.sin_family = AF_INET;
    in.sin_port = htons(0x1234);
    inet_pton(AF_INET, "192.0.2.33", &in.sin_addr);
    read = yarrowdoor_of_sockaddr((const struct sockaddr *)&in);
    expect(memcmp(&read, &address, sizeof read) == 0, "an IPv4 address of a socket");
    expect(yarrowdoor_to_sockaddr(&address, &found) == sizeof in, "the length of an IPv4 address");
    memcpy(&back, &found, sizeof back);
    expect(memcmp(&back, &in, sizeof back) == 0, "an IPv4 address to a socket");
}

static void convert_ipv6(void)
{
    const yarrowdoor_address address = ipv6_address();
    const struct sockaddr_in6 in = ipv6_socket();
    struct sockaddr_storage found;
    struct sockaddr_in6 back;
    const yarrowdoor_address read = yarrowdoor_of_sockaddr((const struct sockaddr *)&in);
    expect(memcmp(&read, &address, sizeof read) == 0, "an IPv6 address of a socket");
    expect(yarrowdoor_to_sockaddr(&address, &found) == sizeof in, "the length of an IPv6 address");
    memcpy(&back, &found, sizeof back);
    expect(memcmp(&back, &in, sizeof back) == 0, "an IPv6 address to a socket");
}

static void convert_none(void)
{
    yarrowdoor_address none, read;
    struct sockaddr_storage found;
    struct sockaddr local;
    memset(&none, 0, sizeof none);
    memset(&local, 0, sizeof local);
    local.sa_family = AF_UNIX;
    read = yarrowdoor_of_sockaddr(&local);
    expect(memcmp(&read, &none, sizeof read) == 0, "a socket of another family has no address");
    expect(yarrowdoor_to_sockaddr(&none, &found) == 0, "no address is no sockaddr");
}

int main(void)
{
    compare_addresses();
    convert_ipv4();
    convert_ipv6();
    convert_none();
    printf("addresses: %d failed\n", failures);
    return failures != 0;
}
