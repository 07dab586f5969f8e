/*
 * The box and the laptop that wakes at eleven. One socket enrols laptops that
 * nobody knows yet, another on the same port belongs to a laptop that is known.
 * Every answer is checked; the status is 0 only if all are as promised.
 */
#include "udphost.h"

#include <stdio.h>
#include <stdlib.h>

enum { PORT = 7000, PEER_PORT = 6000 };

static uint8_t store[UDPHOST_STORE_LEN];

static void expect(bool right, const char *what)
{
    if (!right) {
        printf("wrong: %s\n", what);
        exit(EXIT_FAILURE);
    }
}

static void expect_done(struct udphost_answer answer, const char *what)
{
    if (answer.number != UDPHOST_DONE)
        printf("%s is answered with %d\n", what, answer.number);
    expect(answer.number == UDPHOST_DONE, what);
}

static void open_box(struct udphost *box, uint32_t address)
{
    struct udphost_interface wire = {0};
    wire.id = 1;
    wire.first = address;
    wire.mask = udphost_address(255, 255, 255, 0);
    expect_done(udphost_start(box, &wire, 1, store, sizeof store), "opening");
    printf("the box is open\n");
}

/* A socket on the port that both share; reuse has to be on before the bind. */
static uint8_t open_socket(struct udphost *box, uint32_t address)
{
    struct udphost_answer made = udphost_socket(box);
    expect_done(made, "socket");
    expect_done(udphost_setopt(box, made.descriptor, UDPHOST_OPTION_REUSE, true), "reuse");
    expect_done(udphost_bind(box, made.descriptor, address, PORT), "bind");
    return made.descriptor;
}

/* A datagram comes in, and exactly this socket has to get it. */
static void arrive(struct udphost *box, struct udphost_flow flow, const char *text, uint8_t whose)
{
    struct udphost_answer landed =
        udphost_datagram(box, flow, (const uint8_t *)text, strlen(text));
    expect(landed.number == UDPHOST_DELIVERED, "delivered");
    expect(landed.descriptor == whose, "delivered to the right socket");
    printf("\"%s\" goes to socket %d\n", text, landed.descriptor);
}

static void read_back(struct udphost *box, uint8_t descriptor, const char *text, uint32_t from)
{
    uint8_t buffer[UDPHOST_PAYLOAD_LEN];
    struct udphost_answer read = udphost_recvfrom(box, descriptor, true, buffer, sizeof buffer);
    expect_done(read, "recvfrom");
    expect(read.address == from && read.port == PEER_PORT, "the sender");
    expect(read.len == strlen(text) && memcmp(buffer, text, read.len) == 0, "the payload");
    printf("socket %d reads \"%.*s\"\n", descriptor, (int)read.len, (const char *)buffer);
}

int main(void)
{
    uint32_t address = udphost_address(10, 2, 0, 5);
    uint32_t laptop = udphost_address(10, 2, 0, 9);
    uint32_t stranger = udphost_address(10, 2, 0, 8);
    struct udphost box;

    open_box(&box, address);
    uint8_t enrolment = open_socket(&box, 0);
    uint8_t known = open_socket(&box, address);
    expect_done(udphost_connect(&box, known, laptop, PEER_PORT), "connect");
    printf("socket %d enrols, socket %d is the known laptop's\n", enrolment, known);

    arrive(&box, udphost_flow_of(stranger, PEER_PORT, address, PORT), "who are you", enrolment);
    printf("eleven o'clock: the laptop wakes\n");
    arrive(&box, udphost_flow_of(laptop, PEER_PORT, address, PORT), "good morning", known);

    read_back(&box, known, "good morning", laptop);
    read_back(&box, enrolment, "who are you", stranger);
    struct udphost_answer more = udphost_recvfrom(&box, known, true, NULL, 0);
    expect(more.number == UDPHOST_WOULD_WAIT, "nothing more");
    printf("all as it should be\n");
    return EXIT_SUCCESS;
}
