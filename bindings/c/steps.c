/*
 * Walks through every function of udphost.h and checks what each answers and
 * leaves. Prints the first thing that is wrong; the status is 0 only if none is.
 */
#include "udphost.h"

#include <stdio.h>
#include <stdlib.h>

static uint8_t store[UDPHOST_STORE_LEN];
static uint8_t buffer[UDPHOST_PAYLOAD_LEN];
static int checks;

#define CHECK(condition)                                         \
    do {                                                         \
        checks++;                                                \
        if (!(condition)) {                                      \
            printf("line %d: wrong: %s\n", __LINE__, #condition); \
            exit(EXIT_FAILURE);                                  \
        }                                                        \
    } while (0)

static const uint8_t hello[5] = {'h', 'e', 'l', 'l', 'o'};

static uint32_t own(void)
{
    return udphost_address(10, 2, 0, 5);
}

static uint32_t peer(void)
{
    return udphost_address(10, 2, 0, 9);
}

static struct udphost fresh(void)
{
    struct udphost h;
    struct udphost_interface wire = {udphost_address(255, 255, 255, 0), own(), 0, 0, 0, 1};
    CHECK(udphost_start(&h, &wire, 1, store, sizeof store).number == UDPHOST_DONE);
    return h;
}

/* A fresh host with socket 0 bound to 10.2.0.5:7000. */
static struct udphost bound(void)
{
    struct udphost h = fresh();
    CHECK(udphost_socket(&h).number == UDPHOST_DONE);
    CHECK(udphost_bind(&h, 0, own(), 7000).number == UDPHOST_DONE);
    return h;
}

static void opening(void)
{
    struct udphost h;
    struct udphost_interface list[5];
    memset(list, 0, sizeof list);
    for (uint8_t i = 0; i < 5; i++) {
        list[i].mask = UINT32_MAX;
        list[i].first = udphost_address(10, 2, 0, i);
        list[i].id = i + 1;
    }
    memset(store, 7, sizeof store);
    CHECK(udphost_start(&h, list, 4, store, sizeof store - 1).number == UDPHOST_OTHER_STORE);
    CHECK(udphost_start(&h, list, 5, store, sizeof store).number == UDPHOST_INTERFACES_REFUSED);
    CHECK(h.record.thread == UDPHOST_THREAD_ENDED && h.record.icount == 0 && store[0] == 7);
    CHECK(udphost_socket(&h).number == UDPHOST_ENDED);
    CHECK(udphost_start(&h, list, 4, store, sizeof store).number == UDPHOST_DONE);
    CHECK(h.record.icount == 4 && h.record.interfaces[3].id == 4 && store[0] == 0);
    CHECK(udphost_start(&h, NULL, 0, store, sizeof store).number == UDPHOST_DONE);
    CHECK(udphost_start(&h, NULL, 0, NULL, 0).number == UDPHOST_OTHER_STORE);
}

static void naming(void)
{
    struct udphost h = fresh();
    for (uint8_t k = 0; k < UDPHOST_SOCKETS; k++)
        CHECK(udphost_socket(&h).descriptor == k);
    CHECK(udphost_socket(&h).number == UDPHOST_ALL_OPEN);
    CHECK(udphost_bind(&h, 0, own(), 1023).number == UDPHOST_LOW_PORT);
    CHECK(udphost_bind(&h, 0, peer(), 7000).number == UDPHOST_NOT_OUR_ADDRESS);
    CHECK(udphost_bind(&h, 0, own(), 7000).number == UDPHOST_DONE);
    CHECK(udphost_bind(&h, 0, own(), 7001).number == UDPHOST_BAD_ARGUMENT);
    CHECK(udphost_bind(&h, 1, 0, 7000).number == UDPHOST_IN_USE);
    CHECK(udphost_getpeername(&h, 0).number == UDPHOST_NO_PEER);
    CHECK(udphost_connect(&h, 0, peer(), 6000).number == UDPHOST_DONE);
    struct udphost_answer remote = udphost_getpeername(&h, 0);
    CHECK(remote.address == peer() && remote.port == 6000);
    CHECK(udphost_disconnect(&h, 0).number == UDPHOST_DONE);
    CHECK(udphost_getpeername(&h, 0).number == UDPHOST_NO_PEER);
    struct udphost_answer local = udphost_getsockname(&h, 0);
    CHECK(local.address == own() && local.port == 7000);
    CHECK(udphost_close(&h, 0).number == UDPHOST_DONE);
    CHECK(udphost_close(&h, 0).number == UDPHOST_NOT_OPEN);
    CHECK(udphost_start(&h, NULL, 0, store, sizeof store).number == UDPHOST_DONE);
    CHECK(udphost_socket(&h).number == UDPHOST_DONE);
    CHECK(udphost_connect(&h, 0, peer(), 6000).number == UDPHOST_NO_ROUTE);
}

static void options(void)
{
    struct udphost h = fresh();
    CHECK(udphost_socket(&h).number == UDPHOST_DONE);
    CHECK(udphost_setopt(&h, 0, UDPHOST_OPTION_REUSE, true).number == UDPHOST_DONE);
    CHECK(udphost_getopt(&h, 0, UDPHOST_OPTION_REUSE).value == 1);
    CHECK(udphost_getopt(&h, 0, UDPHOST_OPTION_BSDCOMPAT).value == 0);
    CHECK(udphost_setopt(&h, 0, UDPHOST_OPTION_BSDCOMPAT, true).number == UDPHOST_DONE);
    CHECK(udphost_getopt(&h, 0, UDPHOST_OPTION_BSDCOMPAT).value == 1);
    CHECK(udphost_getopt(&h, 0, 3).number == UDPHOST_BAD_ARGUMENT);
    CHECK(udphost_bind(&h, 0, 0, 0).number == UDPHOST_DONE);
    CHECK(udphost_getsockname(&h, 0).port == 1024);
    CHECK(udphost_setopt(&h, 0, UDPHOST_OPTION_REUSE, false).number == UDPHOST_BAD_ARGUMENT);
}

static void sending(void)
{
    static const uint8_t over[UDPHOST_PAYLOAD_LEN + 1];
    struct udphost h = bound();
    CHECK(udphost_sendto(&h, 0, 0, 0, hello, 5).number == UDPHOST_NO_PEER);
    CHECK(udphost_sendto(&h, 0, peer(), 0, hello, 5).number == UDPHOST_BAD_ARGUMENT);
    CHECK(udphost_sendto(&h, 0, peer(), 6000, over, 513).number == UDPHOST_PAYLOAD_TOO_LONG);
    CHECK(udphost_sendto(&h, 0, peer(), 6000, hello, 5).number == UDPHOST_DONE);
    CHECK(udphost_sendto(&h, 0, udphost_address(224, 0, 0, 1), 1, NULL, 0).number == UDPHOST_DONE);
    CHECK(udphost_out_step(&h, buffer, 511).number == UDPHOST_SHORT_BUFFER);
    struct udphost_answer gone = udphost_out_step(&h, buffer, sizeof buffer);
    CHECK(gone.number == UDPHOST_EMITTED && gone.item.kind == UDPHOST_ITEM_DATAGRAM);
    CHECK(gone.item.flow.src == own() && gone.item.flow.sport == 7000);
    CHECK(gone.item.flow.dst == peer() && gone.item.flow.dport == 6000);
    CHECK(gone.item.len == 5 && memcmp(buffer, hello, 5) == 0);
    CHECK(udphost_out_step(&h, buffer, sizeof buffer).number == UDPHOST_DISCARDED);
    CHECK(udphost_out_step(&h, buffer, sizeof buffer).number == UDPHOST_OUT_EMPTY);
    for (int i = 0; i < UDPHOST_OUT; i++)
        CHECK(udphost_sendto(&h, 0, peer(), 6000, hello, 5).number == UDPHOST_DONE);
    CHECK(udphost_sendto(&h, 0, peer(), 6000, hello, 5).number == UDPHOST_WOULD_WAIT);
    CHECK(udphost_poll(&h, 0, 1).writable == 0);
}

static void reading(void)
{
    struct udphost h = bound();
    struct udphost_flow to_us = udphost_flow_of(peer(), 6000, own(), 7000);
    CHECK(udphost_recvfrom(&h, 0, true, buffer, sizeof buffer).number == UDPHOST_WOULD_WAIT);
    CHECK(udphost_interrupt(&h).number == UDPHOST_BAD_ARGUMENT);
    CHECK(udphost_recvfrom(&h, 0, false, buffer, sizeof buffer).number == UDPHOST_WAITING);
    CHECK(h.record.thread == UDPHOST_THREAD_WAITING && h.record.awaited == 0);
    CHECK(udphost_socket(&h).number == UDPHOST_STILL_WAITING);
    CHECK(udphost_resume(&h, buffer, sizeof buffer).number == UDPHOST_WAITING);
    CHECK(udphost_datagram(&h, to_us, hello, 5).number == UDPHOST_DELIVERED);
    struct udphost_answer needed = udphost_resume(&h, buffer, 4);
    CHECK(needed.number == UDPHOST_SHORT_BUFFER && needed.len == 5);
    struct udphost_answer read = udphost_resume(&h, buffer, sizeof buffer);
    CHECK(read.number == UDPHOST_DONE && read.address == peer() && read.port == 6000);
    CHECK(read.len == 5 && memcmp(buffer, hello, 5) == 0);
    CHECK(udphost_recvfrom(&h, 0, false, buffer, sizeof buffer).number == UDPHOST_WAITING);
    CHECK(udphost_interrupt(&h).number == UDPHOST_DONE);
    CHECK(udphost_datagram(&h, to_us, NULL, 0).number == UDPHOST_DELIVERED);
    struct udphost_answer ready = udphost_poll(&h, 1, 1);
    CHECK(ready.readable == 1 && ready.writable == 1);
    CHECK(udphost_poll(&h, 2, 0).number == UDPHOST_NOT_OPEN);
    CHECK(udphost_recvfrom(&h, 0, true, NULL, 0).number == UDPHOST_DONE);
}

static void arrivals(void)
{
    static const uint8_t over[UDPHOST_PAYLOAD_LEN + 1];
    struct udphost h = bound();
    struct udphost_flow to_us = udphost_flow_of(peer(), 6000, own(), 7000);
    struct udphost_flow to_nobody = udphost_flow_of(peer(), 6000, own(), 9);
    struct udphost_flow elsewhere = udphost_flow_of(own(), 1, peer(), 1);
    struct udphost_flow bad = udphost_flow_of(udphost_address(127, 0, 0, 1), 6000, own(), 7000);
    for (int i = 0; i < UDPHOST_QUEUE; i++)
        CHECK(udphost_datagram(&h, to_us, hello, 5).number == UDPHOST_DELIVERED);
    CHECK(udphost_datagram(&h, to_us, hello, 5).number == UDPHOST_DROPPED);
    CHECK(udphost_datagram(&h, to_us, over, 513).number == UDPHOST_ARRIVAL_TOO_LONG);
    CHECK(udphost_datagram(&h, bad, hello, 5).number == UDPHOST_BAD_SOURCE);
    CHECK(udphost_datagram(&h, elsewhere, hello, 5).number == UDPHOST_NOT_OURS);
    for (int i = 0; i < UDPHOST_OUT; i++)
        CHECK(udphost_datagram(&h, to_nobody, hello, 5).number == UDPHOST_NOTICE_QUEUED);
    CHECK(udphost_datagram(&h, to_nobody, hello, 5).number == UDPHOST_NOTICE_NOT_QUEUED);
    struct udphost_answer gone = udphost_out_step(&h, buffer, sizeof buffer);
    CHECK(gone.number == UDPHOST_EMITTED && gone.item.kind == UDPHOST_ITEM_PORT);
    CHECK(gone.item.flow.src == peer() && gone.item.flow.dport == 9 && gone.item.len == 0);
}

static void notices(void)
{
    struct udphost h = bound();
    struct udphost_flow from_us = udphost_flow_of(own(), 7000, peer(), 6000);
    struct udphost_flow from_nobody = udphost_flow_of(own(), 9, peer(), 6000);
    CHECK(udphost_notice(&h, peer(), peer(), from_us).number == UDPHOST_NOT_OURS);
    CHECK(udphost_notice(&h, 1, own(), from_us).number == UDPHOST_BAD_SOURCE);
    CHECK(udphost_notice(&h, peer(), own(), from_nobody).number == UDPHOST_NOBODY);
    CHECK(udphost_notice(&h, peer(), own(), from_us).number == UDPHOST_HEARD);
    CHECK(udphost_sendto(&h, 0, peer(), 6000, hello, 5).number == UDPHOST_CONNECTION_REFUSED);
    CHECK(udphost_notice(&h, peer(), own(), from_us).number == UDPHOST_HEARD);
    CHECK(udphost_geterr(&h, 0).value == UDPHOST_CONNECTION_REFUSED);
    CHECK(udphost_geterr(&h, 0).value == 0);
    CHECK(udphost_setopt(&h, 0, UDPHOST_OPTION_BSDCOMPAT, true).number == UDPHOST_DONE);
    CHECK(udphost_notice(&h, peer(), own(), from_us).number == UDPHOST_NOT_TOLD);
}

static void ending(void)
{
    struct udphost h = bound();
    CHECK(udphost_ask(&h, udphost_request_of(0, 0)).number == UDPHOST_BAD_ARGUMENT);
    CHECK(udphost_ask(&h, udphost_request_of(255, 0)).number == UDPHOST_BAD_ARGUMENT);
    h.store_len = sizeof store - 1;
    CHECK(udphost_exit(&h).number == UDPHOST_OTHER_STORE);
    h.store_len = sizeof store;
    h.record.awaited = 1;
    CHECK(udphost_exit(&h).number == UDPHOST_NOT_WELL_FORMED);
    h.record.awaited = 0;
    CHECK(udphost_exit(&h).number == UDPHOST_DONE);
    CHECK(h.record.thread == UDPHOST_THREAD_ENDED && !h.record.sockets[0].live);
    CHECK(udphost_exit(&h).number == UDPHOST_ENDED);
}

int main(void)
{
    opening();
    naming();
    options();
    sending();
    reading();
    arrivals();
    notices();
    ending();
    printf("%d checks of the functions in udphost.h, all well\n", checks);
    return EXIT_SUCCESS;
}
