/*
 * A configuration packet served the way emulators do it: a loop over mask bytes, one byte at a time. `wmask` has the bits
 * that can be written, and `w1cmask` those that are cleared by writing 1.
 *
 * It tests the type code and the fixed header fields, gives Unsupported Request in the cases of document 01, captures,
 * reads four bytes, writes under the enables, and writes the completion. It answers the completion's length, or 0 for a packet
 * with another type code or another fixed field.
 *
 * It does less than the library, for it leaves to its caller: the sizes of the spaces, of the packet and of the reply
 * (refusals 1, 2, 3 and 5), the ranges of the function number, of the captured device and of both offsets (refusal 1),
 * whether the edition is one (refusal 1), bit 7 of byte 0, which it ignores under both (refusal 4 under edition 2),
 * whether a bit is in both masks (refusal 1; `masks_serve_looking` looks), and which number a refused packet gets.
 *
 * `masks_serve_pair` and `masks_serve_pair_looking` do the same for a board of two functions. They leave to their caller also
 * whether the two have different numbers (refusal 1).
 */
#include <stddef.h>
#include <stdint.h>

/* look.c */
int look_overlap(const uint8_t *wmask, const uint8_t *w1cmask, const uint8_t *trusted_wmask, const uint8_t *trusted_w1cmask);

struct masks_board {
    uint32_t a;
    uint32_t b;
    uint8_t function;
    uint8_t captured;
    uint8_t bus;
    uint8_t device;
};

static uint32_t joined(const uint8_t *bytes)
{
    return bytes[0] | bytes[1] << 8 | bytes[2] << 16 | (uint32_t)bytes[3] << 24;
}

static void write_bytes(uint8_t *config, const uint8_t *wmask, const uint8_t *w1cmask, unsigned enables, uint32_t value)
{
    for (int i = 0; i < 4; i++, value >>= 8)
        if (enables >> i & 1) {
            config[i] = (config[i] & ~wmask[i]) | (value & wmask[i]);
            config[i] &= ~(value & w1cmask[i]);
        }
}

/* The write by itself: four bytes of a space, their masks and the data of a packet. */
void masks_write(uint8_t *config, const uint8_t *wmask, const uint8_t *w1cmask, const uint8_t *data, uint8_t enables)
{
    write_bytes(config, wmask, w1cmask, enables, joined(data));
}

static size_t complete(const struct masks_board *board, const uint8_t *packet, uint8_t *reply, int reads,
                       uint8_t status)
{
    reply[0] = reads ? 0x4A : 0x0A;
    reply[1] = 0;
    reply[2] = 0;
    reply[3] = reads ? 1 : 0;
    reply[4] = board->captured ? board->bus : 0;
    reply[5] = (board->captured ? board->device << 3 : 0) | board->function;
    reply[6] = status;
    reply[7] = 4;
    reply[8] = packet[4];
    reply[9] = packet[5];
    reply[10] = packet[6];
    reply[11] = 0;
    return reads ? 16 : 12;
}

size_t masks_serve(struct masks_board *board, uint8_t *config, const uint8_t *wmask, const uint8_t *w1cmask,
                   uint8_t *trusted, const uint8_t *trusted_wmask, const uint8_t *trusted_w1cmask, const uint8_t *packet,
                   uint8_t *reply)
{
    unsigned code = packet[0] & 0x7F;
    if (code != 0x04 && code != 0x44 && code != 0x05 && code != 0x45 && code != 0x1B && code != 0x5B)
        return 0;
    if ((packet[1] & 0x70) || (packet[2] & 0x33) || packet[3] != 1 || (packet[7] & 0xF0))
        return 0;

    int writes = (code & 0x40) != 0;
    unsigned bus = packet[8], device = packet[9] >> 3, function = packet[9] & 7;
    int is_trusted = (code & 0x1F) == 0x1B;
    int supported = (code & 0x1F) != 0x05 && function == board->function && !(writes && (packet[2] & 0x40));
    if (is_trusted)
        supported = supported && board->captured && bus == board->bus && device == board->device;
    if (!supported)
        return complete(board, packet, reply, 0, 0x20);

    unsigned offset = (packet[10] & 15u) << 8 | (packet[11] & 0xFCu);
    unsigned enables = packet[7];
    if (writes) {
        uint32_t value = joined(packet + 12);
        if (is_trusted) {
            write_bytes(trusted + offset, trusted_wmask + offset, trusted_w1cmask + offset, enables, value);
        } else {
            board->captured = 1;
            board->bus = bus;
            board->device = device;
            if (offset != board->a)
                write_bytes(config + offset, wmask + offset, w1cmask + offset, enables, value);
        }
        return complete(board, packet, reply, 0, 0x00);
    }

    const uint8_t *source = is_trusted ? trusted + offset : offset == board->a ? trusted + board->b : config + offset;
    for (int i = 0; i < 4; i++)
        reply[12 + i] = source[i];
    return complete(board, packet, reply, 1, 0x00);
}

/* The same, after a look at all masks: a board with a bit in both masks of a space answers 0, as a refused packet does. */
size_t masks_serve_looking(struct masks_board *board, uint8_t *config, const uint8_t *wmask, const uint8_t *w1cmask,
                           uint8_t *trusted, const uint8_t *trusted_wmask, const uint8_t *trusted_w1cmask,
                           const uint8_t *packet, uint8_t *reply)
{
    if (look_overlap(wmask, w1cmask, trusted_wmask, trusted_w1cmask))
        return 0;
    return masks_serve(board, config, wmask, w1cmask, trusted, trusted_wmask, trusted_w1cmask, packet, reply);
}

/* One of the two functions of a board, and its spaces with their masks. */
struct masks_function {
    struct masks_board *board;
    uint8_t *config;
    const uint8_t *wmask;
    const uint8_t *w1cmask;
    uint8_t *trusted;
    const uint8_t *trusted_wmask;
    const uint8_t *trusted_w1cmask;
};

/* A packet for the alternate goes to it, and every other to the primary: also a Type 1 request, whatever byte 9 names. */
size_t masks_serve_pair(const struct masks_function *primary, const struct masks_function *alternate, const uint8_t *packet,
                        uint8_t *reply)
{
    int is_for_alternate = (packet[9] & 7) == alternate->board->function && (packet[0] & 0x1F) != 0x05;
    const struct masks_function *one = is_for_alternate ? alternate : primary;
    return masks_serve(one->board, one->config, one->wmask, one->w1cmask, one->trusted, one->trusted_wmask,
                       one->trusted_w1cmask, packet, reply);
}

static int overlaps(const struct masks_function *one)
{
    return look_overlap(one->wmask, one->w1cmask, one->trusted_wmask, one->trusted_w1cmask);
}

/* The same, after a look at all masks of both. */
size_t masks_serve_pair_looking(const struct masks_function *primary, const struct masks_function *alternate,
                                const uint8_t *packet, uint8_t *reply)
{
    if (overlaps(primary) || overlaps(alternate))
        return 0;
    return masks_serve_pair(primary, alternate, packet, reply);
}
