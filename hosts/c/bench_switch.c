#include "bench_switch.h"

#include "groups.h"

buffer ports, leaving;

void fresh_switch(void)
{
    static const thawribbon_port three[3] = {{0x05, 0x07, 1}, {0x08, 0x08, 0}, {0x0A, 0x0C, 0xFF}};
    lend_ports(three, 3);
    send_request(THAWRIBBON_TYPE1_WRITE, 0x00, 0x05);
    fill(&leaving, 0xEE, 22);
}

void lend_ports(const thawribbon_port *list, size_t count)
{
    fill(&ports, 0x00, count * sizeof *list);
    put(&ports, 0, (const uint8_t *)list, count * sizeof *list);
}

void send_request(uint8_t byte_0, uint8_t byte_2, uint8_t bus)
{
    uint8_t bytes[20] = {0x00, 0x00, 0x00, 0x01, 0x01, 0x00, 0x07, 0x0F, 0x00, 0x18,
                         0x00, 0x04, 0x11, 0x22, 0x33, 0x44, 0x55, 0x66, 0x77, 0x88};
    bytes[0] = byte_0;
    bytes[2] = byte_2;
    bytes[8] = bus;
    send_packet(bytes, 12U + ((byte_0 & 0x40) != 0 ? 4U : 0U) + ((byte_2 & 0x80) != 0 ? 4U : 0U));
}

const thawribbon_port *lent_ports(void)
{
    return (const thawribbon_port *)lent(&ports);
}

size_t ports_count(void)
{
    return ports.length / sizeof(thawribbon_port);
}

static void remember_switch(void)
{
    remember(&ports);
    remember(&packet);
    remember(&leaving);
}

/* The router gives exactly this, and leaves every buffer as it should be. */
static void gives(uint8_t number, uint8_t leaves, size_t port, size_t length, size_t at)
{
    const thawribbon_routed routed =
        thawribbon_route(lent_ports(), ports_count(), lent(&packet), packet.length, lent(&leaving), leaving.length);
    expect(routed.number == number, "another number", at);
    expect(routed.leaves == leaves, "another verdict", at);
    expect(routed.port == port, "another port", at);
    expect(routed.length == length, "another length", at);
    expect(is_as_expected(&ports), "the ports have changed", at);
    expect(is_as_expected(&packet), "the packet has changed", at);
    expect(is_as_expected(&leaving), "what leaves is not as it should be", at);
}

void leaves_by(size_t port, uint8_t byte_0, size_t at)
{
    remember_switch();
    should_hold(&leaving, 0, lent(&packet), packet.length);
    should_hold(&leaving, 0, &byte_0, 1);
    gives(THAWRIBBON_SERVED, 1, port, packet.length, at);
}

void has_no_port(size_t at)
{
    remember_switch();
    gives(THAWRIBBON_SERVED, 0, 0, 0, at);
}

void is_not_routed(uint8_t number, size_t at)
{
    remember_switch();
    gives(number, 0, 0, 0, at);
}
