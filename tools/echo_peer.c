#include "echo_peer.h"

#include <arpa/inet.h>
#include <errno.h>
#include <linux/errqueue.h>
#include <netdb.h>
#include <netinet/in.h>
#include <stdio.h>
#include <stdlib.h>
#include <string.h>
#include <sys/socket.h>
#include <unistd.h>

#include "commands.h"
#include "echo_message.h"
#include "say.h"

enum { PORT_ROOM = 8 };

/* The addresses of a name, or of NULL that of no machine; NULL where there are none, and that is reported. */
static struct addrinfo *resolve(const char *name, unsigned int port, int family, int flags)
{
    const struct addrinfo hints = {.ai_family = family, .ai_socktype = SOCK_DGRAM, .ai_flags = flags | AI_NUMERICSERV};
    struct addrinfo *found = NULL;
    char service[PORT_ROOM];
    snprintf(service, sizeof service, "%u", port);
    const int fault = getaddrinfo(name, service, &hints, &found);
    if (fault == 0)
        return found;
    say_error("%s: %s", name == NULL ? "source" : name, fault == EAI_SYSTEM ? strerror(errno) : gai_strerror(fault));
    return NULL;
}

static bool set_options(int descriptor, int family)
{
    const int on = 1;
    if (family == AF_INET)
        return setsockopt(descriptor, IPPROTO_IP, IP_RECVERR, &on, sizeof on) == 0;
    return setsockopt(descriptor, IPPROTO_IPV6, IPV6_RECVERR, &on, sizeof on) == 0;
}

/* A socket to an address, from a source where one is given. -1: errno says why, and `what` of what. */
static int open_to(const struct addrinfo *to, const struct addrinfo *from, const char **what)
{
    const int descriptor = socket(to->ai_family, SOCK_DGRAM | SOCK_CLOEXEC | SOCK_NONBLOCK, 0);
    if (descriptor < 0)
        return -1;
    if (set_options(descriptor, to->ai_family)) {
        if (from != NULL && bind(descriptor, from->ai_addr, from->ai_addrlen) != 0)
            *what = "source";
        else if (connect(descriptor, to->ai_addr, to->ai_addrlen) == 0)
            return descriptor;
    }
    const int reason = errno;
    close(descriptor);
    errno = reason;
    return -1;
}

static void name_end(struct echo_end *end, const struct sockaddr_storage *address, socklen_t length)
{
    char port[PORT_ROOM] = "";
    if (getnameinfo((const struct sockaddr *)address, length, end->address, sizeof end->address, port, sizeof port,
                    NI_NUMERICHOST | NI_NUMERICSERV | NI_DGRAM) != 0)
        end->address[0] = 0;
    end->port = (unsigned int)strtoul(port, NULL, 10);
}

static void name_ends(struct echo_peer *peer)
{
    struct sockaddr_storage address;
    socklen_t length = sizeof address;
    if (getpeername(peer->descriptor, (struct sockaddr *)&address, &length) == 0)
        name_end(&peer->to, &address, length);
    length = sizeof address;
    if (getsockname(peer->descriptor, (struct sockaddr *)&address, &length) == 0)
        name_end(&peer->from, &address, length);
}

/* The first of the peer's addresses to which a socket can be had. */
static int open_first(struct echo_peer *peer, const struct echo_way *way, const struct addrinfo *addresses)
{
    const bool bound = way->source != NULL || way->source_port != 0;
    const char *what = way->name;
    for (const struct addrinfo *to = addresses; to != NULL; to = to->ai_next) {
        struct addrinfo *from = bound ? resolve(way->source, way->source_port, to->ai_family, AI_PASSIVE | AI_NUMERICHOST) : NULL;
        if (bound && from == NULL)
            return EXIT_SYSTEM;
        what = way->name;
        peer->descriptor = open_to(to, from, &what);
        if (from != NULL)
            freeaddrinfo(from);
        if (peer->descriptor >= 0) {
            name_ends(peer);
            return EXIT_DONE;
        }
    }
    say_error("%s: %s", what, strerror(errno));
    return EXIT_SYSTEM;
}

int echo_open(struct echo_peer *peer, const struct echo_way *way)
{
    int family = way->family;
    *peer = (struct echo_peer){.descriptor = -1};
    if (way->source != NULL) { /* of a peer's addresses those that the source can send to */
        struct addrinfo *source = resolve(way->source, way->source_port, family, AI_NUMERICHOST);
        if (source == NULL)
            return EXIT_SYSTEM;
        family = source->ai_family;
        freeaddrinfo(source);
    }
    struct addrinfo *addresses = resolve(way->name, way->port, family, 0);
    if (addresses == NULL)
        return EXIT_SYSTEM;
    const int code = open_first(peer, way, addresses);
    freeaddrinfo(addresses);
    return code;
}

void echo_close(struct echo_peer *peer)
{
    close(peer->descriptor);
    peer->descriptor = -1;
}

static void read_offender(struct echo_error *error, const struct sock_extended_err *extended)
{
    const struct sockaddr *offender = SO_EE_OFFENDER(extended);
    struct sockaddr_storage address = {.ss_family = offender->sa_family};
    const socklen_t length = offender->sa_family == AF_INET ? sizeof(struct sockaddr_in) : sizeof(struct sockaddr_in6);
    struct echo_end end = {.port = 0};
    if (offender->sa_family != AF_INET && offender->sa_family != AF_INET6)
        return;
    memcpy(&address, offender, length);
    name_end(&end, &address, length);
    memcpy(error->from, end.address, sizeof error->from);
}

static void read_extended(struct echo_error *error, const struct sock_extended_err *extended)
{
    error->reason = (int)extended->ee_errno;
    error->type = extended->ee_type;
    error->code = extended->ee_code;
    if (extended->ee_origin == SO_EE_ORIGIN_ICMP)
        error->icmp = "ICMP";
    else if (extended->ee_origin == SO_EE_ORIGIN_ICMP6)
        error->icmp = "ICMPv6";
    if (error->icmp != NULL)
        read_offender(error, extended);
}

static bool is_extended(const struct cmsghdr *control)
{
    return (control->cmsg_level == IPPROTO_IP && control->cmsg_type == IP_RECVERR) ||
           (control->cmsg_level == IPPROTO_IPV6 && control->cmsg_type == IPV6_RECVERR);
}

bool echo_take_error(const struct echo_peer *peer, struct echo_error *error)
{
    uint8_t cited[ECHO_REQUEST_OCTETS];
    _Alignas(struct cmsghdr) uint8_t controls[512];
    struct iovec octets = {cited, sizeof cited};
    struct msghdr message = {.msg_iov = &octets, .msg_iovlen = 1, .msg_control = controls, .msg_controllen = sizeof controls};
    const ssize_t length = recvmsg(peer->descriptor, &message, MSG_ERRQUEUE | MSG_DONTWAIT);
    if (length < 0)
        return false;
    *error = (struct echo_error){.reason = EIO};
    error->has_number = echo_request_number(cited, (size_t)length, &error->sequence_number);
    for (struct cmsghdr *control = CMSG_FIRSTHDR(&message); control != NULL; control = CMSG_NXTHDR(&message, control))
        if (is_extended(control))
            read_extended(error, (const struct sock_extended_err *)(const void *)CMSG_DATA(control));
    return true;
}

bool echo_send(const struct echo_peer *peer, const uint8_t *octets, size_t length)
{
    return send(peer->descriptor, octets, length, 0) == (ssize_t)length;
}

bool echo_receive(const struct echo_peer *peer, uint8_t *octets, size_t room, size_t *length)
{
    const ssize_t got = recv(peer->descriptor, octets, room, 0);
    *length = got < 0 ? 0 : (size_t)got;
    return got >= 0;
}
