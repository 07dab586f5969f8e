/*
 * The proved UDP host, for callers in C and C++. Link with libudphost.a.
 *
 * The host has no memory of its own. The caller keeps its record and lends
 * 40,960 bytes, the store, for payloads. A step takes the record by value and
 * gives back the next one with an answer; the functions below keep it in a
 * struct udphost:
 *
 *     static uint8_t store[UDPHOST_STORE_LEN];
 *     struct udphost h;
 *     if (udphost_start(&h, list, 1, store, sizeof store).number != UDPHOST_DONE)
 *         ...
 *     uint8_t d = udphost_socket(&h).descriptor;
 *     if (udphost_bind(&h, d, 0, 7000).number != UDPHOST_DONE)
 *         ...
 *
 * Every value of every argument has an answer: a damaged record, a store of
 * another length, a descriptor that is not open, a bad argument. What the
 * caller owes:
 * - a pointer is valid for the length that is given with it. udphost_step and
 *   udphost_open must not be given NULL, not even with length 0; the functions
 *   that are inline take NULL for nothing;
 * - store, payload, buffer and list do not overlap;
 * - a field of type bool holds 0 or 1;
 * - each step is lent the store as the last one left it: its bytes are not
 *   checked.
 *
 * An address is a number, the first of its four parts highest: 10.2.0.5 is
 * 0x0a020005. Addresses and ports are in the machine's own byte order. For both
 * 0 is absent or wildcard.
 */
#ifndef UDPHOST_H
#define UDPHOST_H

#include <stdbool.h>
#include <stddef.h>
#include <stdint.h>
#include <string.h>

#ifdef __cplusplus
extern "C" {
#define UDPHOST_ASSERT(condition) static_assert(condition, #condition)
#else
#define UDPHOST_ASSERT(condition) _Static_assert(condition, #condition)
#endif

/* Limits. */
enum {
    UDPHOST_STORE_LEN = 40960, /* bytes of the lent store */
    UDPHOST_PAYLOAD_LEN = 512, /* the longest payload; an out step's buffer */
    UDPHOST_INTERFACES = 4,    /* at most, each with 1 to 4 addresses */
    UDPHOST_SOCKETS = 16,      /* descriptors 0 to 15 */
    UDPHOST_QUEUE = 4,         /* datagrams that a socket holds at most */
    UDPHOST_OUT = 16           /* items that the out-queue holds at most */
};

/* An answer's number. 1 to 17 are refusals. */
enum {
    UDPHOST_DONE = 0,
    UDPHOST_NOT_WELL_FORMED = 1,     /* the record is not well formed */
    UDPHOST_OTHER_STORE = 2,         /* the store has another length */
    UDPHOST_ENDED = 3,               /* the thread has ended */
    UDPHOST_STILL_WAITING = 4,       /* the thread waits: resume or interrupt first */
    UDPHOST_NOT_OPEN = 5,            /* the descriptor is not open */
    UDPHOST_BAD_ARGUMENT = 6,        /* a bad argument, or a bad moment */
    UDPHOST_LOW_PORT = 7,            /* a port of 1 to 1023 */
    UDPHOST_NOT_OUR_ADDRESS = 8,     /* the address is not our own */
    UDPHOST_IN_USE = 9,              /* the address is in use */
    UDPHOST_CONNECTION_REFUSED = 10, /* the pending error, which this clears */
    UDPHOST_PAYLOAD_TOO_LONG = 11,   /* a payload over 512 */
    UDPHOST_NO_PEER = 12,            /* there is no remote pair */
    UDPHOST_NO_ROUTE = 13,           /* there is no interface to send from */
    UDPHOST_WOULD_WAIT = 14,         /* nothing to read, or the out-queue is full */
    UDPHOST_ALL_OPEN = 15,           /* 16 sockets are open */
    UDPHOST_SHORT_BUFFER = 16,       /* the buffer is too short */
    UDPHOST_INTERFACES_REFUSED = 17, /* the list fails the opening check */
    UDPHOST_WAITING = 18,            /* the thread waits from now on, or still */
    /* no 19 */
    UDPHOST_DELIVERED = 20,          /* the socket in descriptor got it */
    UDPHOST_DROPPED = 21,            /* the queue of the one in descriptor is full */
    UDPHOST_NOTICE_QUEUED = 22,      /* nobody's: a PORT notice will go out */
    UDPHOST_NOTICE_NOT_QUEUED = 23,  /* nobody's, and no notice will go out */
    UDPHOST_NOT_OURS = 24,           /* its destination is not our own */
    UDPHOST_BAD_SOURCE = 25,         /* an address of it is martian or loopback */
    UDPHOST_ARRIVAL_TOO_LONG = 26,   /* a datagram's payload over 512 */
    UDPHOST_HEARD = 27,              /* a socket has a pending error now */
    UDPHOST_NOT_TOLD = 28,           /* a socket's, which has bsdcompat and no peer */
    UDPHOST_NOBODY = 29,             /* no socket's */
    UDPHOST_EMITTED = 30,            /* the item is to go out; the buffer has its payload */
    UDPHOST_OUT_EMPTY = 31,          /* nothing is to go out */
    UDPHOST_DISCARDED = 32           /* the item had a martian destination */
};

/* A request's kind. Any other is answered with 1, 2, else 6. */
enum {
    UDPHOST_KIND_SOCKET = 1,
    UDPHOST_KIND_BIND = 2,       /* descriptor, address, port */
    UDPHOST_KIND_CONNECT = 3,    /* descriptor, address, port */
    UDPHOST_KIND_DISCONNECT = 4, /* descriptor */
    UDPHOST_KIND_SENDTO = 5,     /* descriptor, address, port, the payload */
    UDPHOST_KIND_RECVFROM = 6,   /* descriptor, on: nonblocking, the buffer */
    UDPHOST_KIND_CLOSE = 7,      /* descriptor */
    UDPHOST_KIND_SETOPT = 8,     /* descriptor, option, on */
    UDPHOST_KIND_DATAGRAM = 9,   /* flow, the payload */
    UDPHOST_KIND_NOTICE = 10,    /* src, dst, flow: what it embeds */
    UDPHOST_KIND_OUT_STEP = 11,  /* the buffer */
    UDPHOST_KIND_EXIT = 12,
    UDPHOST_KIND_GETSOCKNAME = 13, /* descriptor */
    UDPHOST_KIND_GETPEERNAME = 14, /* descriptor */
    UDPHOST_KIND_GETERR = 15,      /* descriptor */
    UDPHOST_KIND_GETOPT = 16,      /* descriptor, option */
    UDPHOST_KIND_RESUME = 17,      /* the buffer */
    UDPHOST_KIND_INTERRUPT = 18,
    UDPHOST_KIND_POLL = 19 /* readers, writers */
};

/* Options of getopt and setopt. */
enum {
    UDPHOST_OPTION_BSDCOMPAT = 1,
    UDPHOST_OPTION_REUSE = 2 /* to be set before there is a local port */
};

/* An out-item's kind. */
enum {
    UDPHOST_ITEM_DATAGRAM = 0,
    UDPHOST_ITEM_PORT = 1, /* PORT unreachable */
    UDPHOST_ITEM_HOST = 2  /* HOST unreachable */
};

/* A record's thread. */
enum {
    UDPHOST_THREAD_RUNNING = 0,
    UDPHOST_THREAD_WAITING = 1, /* in recvfrom on the descriptor awaited */
    UDPHOST_THREAD_ENDED = 2
};

/* Where a datagram comes from and where it goes. */
struct udphost_flow {
    uint32_t src;
    uint32_t dst;
    uint16_t sport;
    uint16_t dport;
};

/* An interface: id 1 to 255; an address that is 0 is absent, the first is primary. */
struct udphost_interface {
    uint32_t mask;
    uint32_t first;
    uint32_t second;
    uint32_t third;
    uint32_t fourth;
    uint8_t id;
};

/* A socket; a closed one is all zeros. */
struct udphost_socket_state {
    uint32_t laddr;
    uint32_t raddr;
    uint16_t lport;
    uint16_t rport;
    bool live;
    uint8_t error;
    bool bsdcompat;
    bool reuse;
};

/* The head of a queued datagram; its bytes are in the store. */
struct udphost_queued {
    struct udphost_flow flow;
    uint16_t len;
    uint8_t iface; /* the interface it came by, 0 from inside */
};

/* Socket k's queue: the heads from 4 * k, oldest first. */
struct udphost_queues {
    struct udphost_queued heads[UDPHOST_SOCKETS * UDPHOST_QUEUE];
    uint8_t counts[UDPHOST_SOCKETS];
};

/* An item to go out. A notice embeds the flow and goes back along it: from dst to src. */
struct udphost_out_item {
    struct udphost_flow flow;
    uint16_t len; /* of the payload, 0 for a notice */
    uint8_t kind;
};

/* Oldest first. */
struct udphost_out_queue {
    struct udphost_out_item items[UDPHOST_OUT];
    uint8_t count;
};

/* All that the host is, but for the payloads. */
struct udphost_record {
    struct udphost_interface interfaces[UDPHOST_INTERFACES];
    struct udphost_socket_state sockets[UDPHOST_SOCKETS];
    struct udphost_queues queues;
    struct udphost_out_queue out;
    uint8_t icount;
    uint8_t thread;
    uint8_t awaited; /* 0 where the thread does not wait */
};

/* A step with its arguments; what its kind does not use is ignored. */
struct udphost_request {
    struct udphost_flow flow;
    uint32_t src;
    uint32_t dst;
    uint32_t address;
    uint16_t port;
    uint16_t readers;
    uint16_t writers;
    uint8_t kind;
    uint8_t descriptor;
    uint8_t option;
    bool on;
};

/* An answer; a field that it does not use is 0. */
struct udphost_answer {
    struct udphost_out_item item; /* with 30 */
    uint32_t address;             /* a local or remote pair, or who sent what was read */
    uint16_t port;
    uint16_t len;       /* of what was read; the length needed, with 16 from a read */
    uint16_t readable;  /* poll's ready bits */
    uint16_t writable;
    uint8_t number;
    uint8_t descriptor; /* of socket with 0, and with 20 and 21 */
    uint8_t value;      /* the pending error, 0 or 10; an option, 0 or 1 */
};

/* The record for the next step, and the answer. */
struct udphost_reply {
    struct udphost_record next;
    struct udphost_answer answer;
};

UDPHOST_ASSERT(sizeof(bool) == 1);
UDPHOST_ASSERT(sizeof(struct udphost_flow) == 12);
UDPHOST_ASSERT(offsetof(struct udphost_flow, sport) == 8);
UDPHOST_ASSERT(sizeof(struct udphost_interface) == 24);
UDPHOST_ASSERT(offsetof(struct udphost_interface, id) == 20);
UDPHOST_ASSERT(sizeof(struct udphost_socket_state) == 16);
UDPHOST_ASSERT(offsetof(struct udphost_socket_state, lport) == 8);
UDPHOST_ASSERT(offsetof(struct udphost_socket_state, live) == 12);
UDPHOST_ASSERT(offsetof(struct udphost_socket_state, reuse) == 15);
UDPHOST_ASSERT(sizeof(struct udphost_queued) == 16);
UDPHOST_ASSERT(offsetof(struct udphost_queued, len) == 12);
UDPHOST_ASSERT(offsetof(struct udphost_queued, iface) == 14);
UDPHOST_ASSERT(sizeof(struct udphost_queues) == 1040);
UDPHOST_ASSERT(offsetof(struct udphost_queues, counts) == 1024);
UDPHOST_ASSERT(sizeof(struct udphost_out_item) == 16);
UDPHOST_ASSERT(offsetof(struct udphost_out_item, len) == 12);
UDPHOST_ASSERT(offsetof(struct udphost_out_item, kind) == 14);
UDPHOST_ASSERT(sizeof(struct udphost_out_queue) == 260);
UDPHOST_ASSERT(offsetof(struct udphost_out_queue, count) == 256);
UDPHOST_ASSERT(sizeof(struct udphost_record) == 1656);
UDPHOST_ASSERT(offsetof(struct udphost_record, sockets) == 96);
UDPHOST_ASSERT(offsetof(struct udphost_record, queues) == 352);
UDPHOST_ASSERT(offsetof(struct udphost_record, out) == 1392);
UDPHOST_ASSERT(offsetof(struct udphost_record, icount) == 1652);
UDPHOST_ASSERT(offsetof(struct udphost_record, awaited) == 1654);
UDPHOST_ASSERT(sizeof(struct udphost_request) == 36);
UDPHOST_ASSERT(offsetof(struct udphost_request, address) == 20);
UDPHOST_ASSERT(offsetof(struct udphost_request, kind) == 30);
UDPHOST_ASSERT(offsetof(struct udphost_request, on) == 33);
UDPHOST_ASSERT(sizeof(struct udphost_answer) == 32);
UDPHOST_ASSERT(offsetof(struct udphost_answer, address) == 16);
UDPHOST_ASSERT(offsetof(struct udphost_answer, number) == 28);
UDPHOST_ASSERT(offsetof(struct udphost_answer, value) == 30);
UDPHOST_ASSERT(sizeof(struct udphost_reply) == 1688);
UDPHOST_ASSERT(offsetof(struct udphost_reply, answer) == 1656);

/* ---- the library's two functions */

/*
 * Opens a host with a list of interfaces: 0, 2 if the store has another length,
 * 17 if the list fails the opening check (more than 4 records does). 0 zeroes
 * the store and gives a running host without sockets. 2 and 17 leave the store
 * as it is and give an ended host with no interface.
 */
struct udphost_reply udphost_open(const struct udphost_interface *list, size_t count,
                                  uint8_t *store, size_t store_len);

/*
 * One step: a call, an arrival or the out step, as the request's kind says. The
 * functions below say which numbers each gives. After a number of 1 to 17 the
 * record, the store and the buffer are as they were, but for 10, which clears
 * the pending error and, from resume, ends the wait. After an arrival's 21, 23
 * to 26, 28 and 29 they are as they were too. A buffer is only written by a read
 * that answers 0 and by an out step that answers 30, no further than the payload.
 */
struct udphost_reply udphost_step(struct udphost_record kept, uint8_t *store, size_t store_len,
                                  struct udphost_request request,
                                  const uint8_t *payload, size_t payload_len,
                                  uint8_t *buffer, size_t buffer_len);

/* ---- a host that is kept, with a function for each step */

/* The record, which each function below replaces, and the lent store. */
struct udphost {
    struct udphost_record record;
    uint8_t *store;
    size_t store_len;
};

/* The address a.b.c.d. */
static inline uint32_t udphost_address(uint8_t a, uint8_t b, uint8_t c, uint8_t d)
{
    return (uint32_t)a << 24 | (uint32_t)b << 16 | (uint32_t)c << 8 | d;
}

static inline struct udphost_flow udphost_flow_of(uint32_t src, uint16_t sport,
                                                  uint32_t dst, uint16_t dport)
{
    struct udphost_flow flow;
    flow.src = src;
    flow.dst = dst;
    flow.sport = sport;
    flow.dport = dport;
    return flow;
}

/* Opens the host and keeps the store: 0, 2, 17. */
static inline struct udphost_answer udphost_start(struct udphost *h,
                                                  const struct udphost_interface *list,
                                                  size_t count, uint8_t *store, size_t store_len)
{
    static const struct udphost_interface none = {0, 0, 0, 0, 0, 0};
    uint8_t nothing[1] = {0};
    struct udphost_reply reply =
        udphost_open(list ? list : &none, list ? count : 0, store ? store : nothing,
                     store ? store_len : 0);
    h->record = reply.next;
    h->store = store;
    h->store_len = store_len;
    return reply.answer;
}

/* A request with nothing but its kind and a descriptor. */
static inline struct udphost_request udphost_request_of(uint8_t kind, uint8_t descriptor)
{
    struct udphost_request request;
    memset(&request, 0, sizeof request);
    request.kind = kind;
    request.descriptor = descriptor;
    return request;
}

/* Makes a step and keeps the record. Where there is no store, payload or buffer its length is 0. */
static inline struct udphost_answer udphost_make(struct udphost *h, struct udphost_request request,
                                                 const uint8_t *payload, size_t payload_len,
                                                 uint8_t *buffer, size_t buffer_len)
{
    uint8_t nothing[3] = {0, 0, 0};
    struct udphost_reply reply =
        udphost_step(h->record, h->store ? h->store : nothing, h->store ? h->store_len : 0, request,
                     payload ? payload : nothing + 1, payload ? payload_len : 0,
                     buffer ? buffer : nothing + 2, buffer ? buffer_len : 0);
    h->record = reply.next;
    return reply.answer;
}

/* A step that is lent neither payload nor buffer. */
static inline struct udphost_answer udphost_ask(struct udphost *h, struct udphost_request request)
{
    return udphost_make(h, request, NULL, 0, NULL, 0);
}

/*
 * Calls. Every call may answer 1, 2, 3 and, but for resume and interrupt, 4;
 * every call with a descriptor may answer 5. The others stand with each.
 */

/* The lowest closed descriptor, in the answer's descriptor: 0, 15. */
static inline struct udphost_answer udphost_socket(struct udphost *h)
{
    return udphost_ask(h, udphost_request_of(UDPHOST_KIND_SOCKET, 0));
}

/* Gives the socket a local pair; port 0 takes the lowest free one from 1024: 0, 6, 8, 7, 9. */
static inline struct udphost_answer udphost_bind(struct udphost *h, uint8_t descriptor,
                                                 uint32_t address, uint16_t port)
{
    struct udphost_request request = udphost_request_of(UDPHOST_KIND_BIND, descriptor);
    request.address = address;
    request.port = port;
    return udphost_ask(h, request);
}

/* Gives the socket a remote pair, port or 0, and a local pair if it has none: 0, 6, 13. */
static inline struct udphost_answer udphost_connect(struct udphost *h, uint8_t descriptor,
                                                    uint32_t address, uint16_t port)
{
    struct udphost_request request = udphost_request_of(UDPHOST_KIND_CONNECT, descriptor);
    request.address = address;
    request.port = port;
    return udphost_ask(h, request);
}

/* Clears the remote pair: 0. */
static inline struct udphost_answer udphost_disconnect(struct udphost *h, uint8_t descriptor)
{
    return udphost_ask(h, udphost_request_of(UDPHOST_KIND_DISCONNECT, descriptor));
}

/* The local pair, in address and port: 0. */
static inline struct udphost_answer udphost_getsockname(struct udphost *h, uint8_t descriptor)
{
    return udphost_ask(h, udphost_request_of(UDPHOST_KIND_GETSOCKNAME, descriptor));
}

/* The remote pair, in address and port: 0, 12. */
static inline struct udphost_answer udphost_getpeername(struct udphost *h, uint8_t descriptor)
{
    return udphost_ask(h, udphost_request_of(UDPHOST_KIND_GETPEERNAME, descriptor));
}

/* The pending error, 0 or 10, in value; clears it: 0. */
static inline struct udphost_answer udphost_geterr(struct udphost *h, uint8_t descriptor)
{
    return udphost_ask(h, udphost_request_of(UDPHOST_KIND_GETERR, descriptor));
}

/* The option, 0 or 1, in value: 0, 6. */
static inline struct udphost_answer udphost_getopt(struct udphost *h, uint8_t descriptor,
                                                   uint8_t option)
{
    struct udphost_request request = udphost_request_of(UDPHOST_KIND_GETOPT, descriptor);
    request.option = option;
    return udphost_ask(h, request);
}

/* Sets an option; reuse only while there is no local port: 0, 6. */
static inline struct udphost_answer udphost_setopt(struct udphost *h, uint8_t descriptor,
                                                   uint8_t option, bool on)
{
    struct udphost_request request = udphost_request_of(UDPHOST_KIND_SETOPT, descriptor);
    request.option = option;
    request.on = on;
    return udphost_ask(h, request);
}

/* Queues a datagram to go out; with address and port 0 to the peer: 0, 10, 6, 11, 12, 13, 14. */
static inline struct udphost_answer udphost_sendto(struct udphost *h, uint8_t descriptor,
                                                   uint32_t address, uint16_t port,
                                                   const uint8_t *payload, size_t payload_len)
{
    struct udphost_request request = udphost_request_of(UDPHOST_KIND_SENDTO, descriptor);
    request.address = address;
    request.port = port;
    return udphost_make(h, request, payload, payload_len, NULL, 0);
}

/*
 * Reads the oldest datagram: its bytes into the buffer, its length in len, its
 * sender in address and port: 0, 10, 16 with the length needed in len. If there
 * is none: 14 if nonblocking, else 18, and the thread waits.
 */
static inline struct udphost_answer udphost_recvfrom(struct udphost *h, uint8_t descriptor,
                                                     bool nonblocking,
                                                     uint8_t *buffer, size_t buffer_len)
{
    struct udphost_request request = udphost_request_of(UDPHOST_KIND_RECVFROM, descriptor);
    request.on = nonblocking;
    return udphost_make(h, request, NULL, 0, buffer, buffer_len);
}

/* What recvfrom waits for: 0 as there and 10, both end the wait; 6 if it doesn't wait; 16, 18. */
static inline struct udphost_answer udphost_resume(struct udphost *h,
                                                   uint8_t *buffer, size_t buffer_len)
{
    struct udphost_request request = udphost_request_of(UDPHOST_KIND_RESUME, 0);
    return udphost_make(h, request, NULL, 0, buffer, buffer_len);
}

/* Ends the wait: 0, 6 if it doesn't wait. */
static inline struct udphost_answer udphost_interrupt(struct udphost *h)
{
    return udphost_ask(h, udphost_request_of(UDPHOST_KIND_INTERRUPT, 0));
}

/* Bit k is descriptor k. Which of them are ready, in readable and writable: 0, 5. */
static inline struct udphost_answer udphost_poll(struct udphost *h,
                                                 uint16_t readers, uint16_t writers)
{
    struct udphost_request request = udphost_request_of(UDPHOST_KIND_POLL, 0);
    request.readers = readers;
    request.writers = writers;
    return udphost_ask(h, request);
}

/* Closes the socket; what it held is gone: 0. */
static inline struct udphost_answer udphost_close(struct udphost *h, uint8_t descriptor)
{
    return udphost_ask(h, udphost_request_of(UDPHOST_KIND_CLOSE, descriptor));
}

/* Closes every socket and ends the thread; the out-queue stays: 0. */
static inline struct udphost_answer udphost_exit(struct udphost *h)
{
    return udphost_ask(h, udphost_request_of(UDPHOST_KIND_EXIT, 0));
}

/*
 * Arrivals and the out step. Each may answer 1 and 2; the thread is not asked,
 * so a host that waits or has ended answers them too.
 */

/* A datagram came in: 24, 25, 26, 20, 21, 22, 23. */
static inline struct udphost_answer udphost_datagram(struct udphost *h, struct udphost_flow flow,
                                                     const uint8_t *payload, size_t payload_len)
{
    struct udphost_request request = udphost_request_of(UDPHOST_KIND_DATAGRAM, 0);
    request.flow = flow;
    return udphost_make(h, request, payload, payload_len, NULL, 0);
}

/* A PORT or HOST notice came in from src to dst, embedding a flow: 24, 25, 27, 28, 29. */
static inline struct udphost_answer udphost_notice(struct udphost *h, uint32_t src, uint32_t dst,
                                                   struct udphost_flow flow)
{
    struct udphost_request request = udphost_request_of(UDPHOST_KIND_NOTICE, 0);
    request.src = src;
    request.dst = dst;
    request.flow = flow;
    return udphost_ask(h, request);
}

/*
 * Takes the oldest item from the out-queue: 16 if the buffer is below 512
 * bytes; 31; 32; 30 with the item, and the first item.len bytes of the buffer
 * are its payload. What goes to 127/8 is handled inside: 20 to 23, 27 to 29.
 */
static inline struct udphost_answer udphost_out_step(struct udphost *h,
                                                     uint8_t *buffer, size_t buffer_len)
{
    struct udphost_request request = udphost_request_of(UDPHOST_KIND_OUT_STEP, 0);
    return udphost_make(h, request, NULL, 0, buffer, buffer_len);
}

#ifdef __cplusplus
}
#endif

#endif
