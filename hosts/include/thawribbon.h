/*
 * thawribbon.h: the answers of a board, of one function or of two, to configuration packets, the three capability lists, two records, a
 * switch's router, the asking side: requests written, and completions read back; a switch's multicast: capabilities read, and addresses
 * judged; and the extended list of a new board: laid out, checked and written.
 *
 * Document 01 of the project fixes what every function answers, with what document 02 corrects, and for the router, the asking side,
 * multicast, layouts and boards of two functions document 02; their words are used here. The rules that hold stand in docs/RULES.md of the
 * project, each with its number: "rule 4.1" is one of them. Numbers ending in h are hexadecimal. A board has one function, where nothing
 * else is said.
 *
 * The packet that has to land is a trusted write. A board takes it only when a Type 0 write has told it its bus and device number. Done is
 * not landed: a write that is done has changed only the bits that the space's rules and marks let it change. So read it back, and compare:
 *
 *     int renew(thawribbon_board *board, const uint8_t type0_write[16], const uint8_t trusted_write[16], const uint8_t trusted_read[12])
 *     {
 *         thawribbon_answer answer;
 *         const uint8_t *data;
 *         if (thawribbon_board_serve(board, type0_write, 16, &answer) != THAWRIBBON_DONE ||
 *             thawribbon_board_serve(board, trusted_write, 16, &answer) != THAWRIBBON_DONE ||
 *             thawribbon_board_serve(board, trusted_read, 12, &answer) != THAWRIBBON_DONE) {
 *             return 0;
 *         }
 *         data = thawribbon_data(&answer);
 *         return data != NULL && memcmp(data, trusted_write + THAWRIBBON_DATA, 4) == 0;
 *     }
 *
 * A bit that is marked, such as an error status bit, is cleared by writing 1 and reads 0 then. It has landed where it reads 0.
 *
 * There are two parts. The first declares the functions of libthawribbon.a, which are compiled from proved code. The second, from
 * "Helpers" on, is inline C over them, tried and not proved: a board in one struct, one of two functions too, what became of a packet, what
 * leaves a switch, what is heard of a request, the multicast of a switch in one struct, a layout in one struct, texts, and a list's headers.
 * A program that answers packets begins with thawribbon_board_serve, in the second part, or with thawribbon_pair_serve, where its board has
 * two functions; one that passes them on begins with thawribbon_ports_route; one that asks begins with thawribbon_board_ask or
 * thawribbon_pair_ask, where it has the board, and with thawribbon_write_request and thawribbon_hear, where a bus is between; one that
 * wants to know which hosts get a radar's group begins with thawribbon_offload_read; one that lays out a new board begins with
 * thawribbon_layout_lay.
 *
 * Any bytes, of any length, get an answer: every function tests what it is given, and returns. A number in an answer says how it went;
 * the numbers are named below. Each but 0 is a refusal, and a refusal changes no byte of a space, a reply, a room, the buffer for what
 * leaves or that for a request, and no capture. What is written instead tells nothing: an answer's completion and the bytes of what leaves
 * are FFh throughout after it, what is heard and what is judged are 0 but for the number, a Multicast capability's fields are 0, and so are
 * the offsets of a struct thawribbon_layout.
 *
 * What the caller owes:
 * - A buffer is a pointer and a length, and that many bytes (for a room and for offsets, that many numbers; for a list of ports, that many
 *   ports; for structures, that many of them) are really there. With length 0 the pointer is never followed and may be anything, NULL
 *   included.
 * - A buffer that is written (an ordinary or trusted space, of a board of two functions all four, reply, room, leaving, a request's buffer, a
 *   capability's fields, the space that a layout is written into; of the helpers, the board, of one function or of two, the answer with its
 *   completion, what leaves with its bytes, what is heard, what a record says, an offload, what is judged, and a layout) overlaps no other
 *   buffer of the same call. Buffers that are only read may overlap each other, or be the same. thawribbon_board_serve,
 *   thawribbon_pair_serve, thawribbon_ports_route, thawribbon_board_ask, thawribbon_pair_ask and thawribbon_layout_lay look at this
 *   themselves, and answer 1.
 * - While a call runs, no other thread writes to its buffers, or reads those that it writes.
 *
 * Nothing is kept: no function stores a pointer, allocates, or has a state of its own. What a board, or each of its two functions, has
 * captured goes in and comes back by value, or is kept in the board that the caller owns. So any thread may call any function at any time
 * on buffers of its own.
 *
 * Link with the libthawribbon.a of the same version. It calls memcpy and memset of the C library, and nothing else.
 */
#ifndef THAWRIBBON_H
#define THAWRIBBON_H

#include <stddef.h>
#include <stdint.h>

#ifdef __cplusplus
extern "C" {
#endif

/* The version of this header, and of the archive that came with it. */
#define THAWRIBBON_VERSION "0.13.0"
#define THAWRIBBON_VERSION_MAJOR 0
#define THAWRIBBON_VERSION_MINOR 13
#define THAWRIBBON_VERSION_PATCH 0

/* An answer that is dropped is an answer that nobody looked at: compilers that can, warn. */
#if defined(__GNUC__)
#define THAWRIBBON_MUST_USE __attribute__((warn_unused_result))
#else
#define THAWRIBBON_MUST_USE
#endif
/* What a program may leave unused: no compiler warns. */
#if defined(__GNUC__)
#define THAWRIBBON_MAY_USE __attribute__((unused))
#else
#define THAWRIBBON_MAY_USE
#endif

/* The answer numbers, and when each is given: by document 01, and by what document 02 adds and changes. 7 is given no more. */
enum thawribbon_number {
    /* served; the completion, or at a router the verdict, may still be Unsupported Request (UR) */
    THAWRIBBON_SERVED = 0,
    /* a space, its rules or its marks aren't 4,096 bytes, a bit is 1 in the rules and in the marks of a space, a captured device is over
       31, a function number or A or B is outside its range, the edition is neither THAWRIBBON_EDITION_1 nor THAWRIBBON_EDITION_2 (one that
       an initialiser leaves out is 0); of a board of two functions, any of this is so of either, or both have one number (rule 14.1); a
       record is asked for where none may stand (rule 2.2); at thawribbon_board_serve and thawribbon_pair_serve, also where buffers overlap;
       at a router, a list has over 32 ports, a port's secondary bus is over its subordinate bus, or two ranges of buses meet (rule 10.2); at
       thawribbon_ports_route, also where what leaves overlaps the ports or the packet; of a request to be written, its kind is none of the
       six, its device is over 31, its function over 7, its offset over FFCh or not a multiple of 4, or its enables over 15; at
       thawribbon_board_ask and thawribbon_pair_ask, also where what is heard overlaps the board; of an address to be judged, the list has
       over 32 ports, the packet enters by none of them, or a port's fields are such as no reading gives (rule 12.4); of structures to be
       laid out, there are none or over 960, an ID is 0000h, a version over 15, or a length outside 4 to 3,840 (rule 13.1), and where they
       are to be written, also where the space isn't 4,096 bytes; at thawribbon_layout_lay, also where buffers overlap */
    THAWRIBBON_BAD_DESCRIPTION = 1,
    /* the reply is under 16 bytes, the list room is under the list's maximum, the buffer for what leaves is under 20 bytes, the buffer for a
       request is shorter than the request, or the room for a layout has fewer numbers than there are structures */
    THAWRIBBON_NO_ROOM = 2,
    /* the packet, or the completion, has fewer than 12 bytes */
    THAWRIBBON_SHORT_PACKET = 3,
    /* the type code isn't one of the six (rule 3.2); at a board of edition 2, also where bit 7 of byte 0 is set (rule 3.11); at a router, also
       where it is Type 0 (rule 10.5), or where it is trusted and the port does not support TCS routing (rule 10.6); of a completion, its first
       byte is neither 4Ah nor 0Ah */
    THAWRIBBON_UNKNOWN_TYPE = 4,
    /* the packet length doesn't fit its type and digest bit; the completion's isn't 16 with first byte 4Ah, or 12 with 0Ah */
    THAWRIBBON_WRONG_LENGTH = 5,
    /* a fixed header field has another value; of a completion, any other byte is one that no reply with its first byte has at its place */
    THAWRIBBON_WRONG_FIELD = 6,
    /* not the structure asked for */
    THAWRIBBON_OTHER_STRUCTURE = 8,
    /* a wrong length, or the structure runs out of its space */
    THAWRIBBON_WRONG_EXTENT = 9,
    /* function vector without exactly one bit */
    THAWRIBBON_NOT_ONE_FUNCTION = 10,
    /* a pointer of the list is below its floor (rule 6.8) */
    THAWRIBBON_BELOW_FLOOR = 11,
    /* a pointer of the list leads to an offset that is already in the chain (rule 6.8) */
    THAWRIBBON_COMES_BACK = 12,
    /* of a Multicast capability, Num Group is over Max Group, or it is enabled with an Index Position under 12 (rule 12.2) */
    THAWRIBBON_WRONG_GROUPS = 13,
    /* of structures to be laid out, no layout is acceptable: their lengths before the last, each rounded up to 4, plus the last as it stands
       exceed 3,840 (rule 13.5) */
    THAWRIBBON_NO_LAYOUT = 14,
    /* of a layout, the checker does not accept it (rule 13.2) */
    THAWRIBBON_NOT_ACCEPTED = 18
};

/* The bytes of a space, of its rules and of its marks. */
#define THAWRIBBON_SPACE 4096
/* The bytes that a reply must have; 12 or 16 of them are written. */
#define THAWRIBBON_REPLY 16
/* The bytes that the buffer for what leaves must have; 12, 16 or 20 of them are written. */
#define THAWRIBBON_LEAVING 20
/* The most ports that a list can have. */
#define THAWRIBBON_PORTS 32
/* The most groups that a Multicast capability can have: group 0 to group 63. */
#define THAWRIBBON_GROUPS 64
/* The ID by which an extended list names a Multicast capability. */
#define THAWRIBBON_MULTICAST_ID 0x0012
/* The bytes that hold any request that is written: a write has 16, and a read 12. */
#define THAWRIBBON_REQUEST 16
/* Where four data bytes are: in a packet that writes, and in a completion of 16 bytes. */
#define THAWRIBBON_DATA 12
/* Byte 0 of a packet, without its bit 7: the six type codes that are served (rule 3.2), and the six kinds of a request. Bit 7 is 0 in every
 * request that is written; what a board does where it is set is said by its edition. */
#define THAWRIBBON_TYPE0_READ 0x04
#define THAWRIBBON_TYPE0_WRITE 0x44
#define THAWRIBBON_TYPE1_READ 0x05
#define THAWRIBBON_TYPE1_WRITE 0x45
#define THAWRIBBON_TRUSTED_READ 0x1B
#define THAWRIBBON_TRUSTED_WRITE 0x5B
/*
 * Byte 6 of a completion, its status byte: the access was done, or it is an Unsupported Request (UR), and was not. UR is answered to these
 * five, and to nothing else (rule 4.1); poison on a read is ignored (rule 4.2):
 * - a Type 1 request
 * - a Type 0 request for another function
 * - a trusted request while nothing is captured
 * - a trusted request that does not name the captured bus and device and the board's own function
 * - a poisoned write
 * At a board of two functions these hold for the function that the request names. A Type 1 request, and a request that names neither
 * function, get it with the primary's completer ID (rule 14.4).
 */
#define THAWRIBBON_STATUS 6
#define THAWRIBBON_STATUS_SUCCESSFUL 0x00
#define THAWRIBBON_STATUS_UNSUPPORTED 0x20
/* The most offsets that each list can have, so the numbers that its room must have. No more than THAWRIBBON_EXTENDED_MAXIMUM structures may
 * be laid out. */
#define THAWRIBBON_COMPATIBLE_MAXIMUM 48
#define THAWRIBBON_EXTENDED_MAXIMUM 960
#define THAWRIBBON_TRUSTED_MAXIMUM 1022

/*
 * The two editions of byte 0 that a board can have. They differ in its bit 7, which later revisions of Base take into the format field:
 * - Edition 1: bit 7 is reserved, and ignored. Every version before 0.10.0 did this.
 * - Edition 2: bit 7 belongs to the format field. A packet of 12 bytes or more that has it set is refused with 4, and nothing changes.
 * A packet whose bit 7 is 0 is answered alike under both, and the empty packet too.
 */
#define THAWRIBBON_EDITION_1 1
#define THAWRIBBON_EDITION_2 2

/*
 * What stays while a board runs.
 *
 * Name all four members. One that an initialiser leaves out is 0, and 0 is no edition: such a board answers 1 to every packet. Where members
 * are set one by one in a struct that was not zeroed, an edition that is not set may be any number, 1 and 2 among them. The edition has 32
 * bits, so that 257 is seen as 257, and answered 1. A number of more than 32 bits is cut by the C compiler before the library sees it: check
 * those that come from outside first.
 */
typedef struct thawribbon_description {
    uint8_t function; /* the board's function number, 0 to 7 */
    uint32_t a;       /* the ordinary place of the Device Correlation word: a multiple of 4 from 104h to FFCh */
    uint32_t b;       /* its trusted place: a multiple of 4 from 00Ch to FFCh */
    uint32_t edition; /* of byte 0: THAWRIBBON_EDITION_1 or THAWRIBBON_EDITION_2 */
} thawribbon_description;

/* The captured bus and device number, or the fact that none is captured. The caller keeps it between packets. */
typedef struct thawribbon_capture {
    uint8_t captured; /* 0: nothing is captured, and bus and device are not looked at. Any other value: they are captured */
    uint8_t bus;
    uint8_t device; /* 0 to 31 */
} thawribbon_capture;

/* The capture of a fresh board, where one is declared: thawribbon_capture capture = THAWRIBBON_FRESH;
 * thawribbon_fresh() of the helpers is the same as a value, which can be assigned. */
#define THAWRIBBON_FRESH {0, 0, 0}

/* The answer to a packet. */
typedef struct thawribbon_served {
    size_t length;              /* how many bytes of the reply are written: 12 or 16, or 0 where refused */
    uint8_t number;             /* 0 to 6 */
    thawribbon_capture capture; /* what to keep for the next packet */
} thawribbon_served;

/*
 * One of the two functions of a board, the primary or the alternate: what stays of it while the board runs. The edition is the board's.
 *
 * Name all three members. One that an initialiser leaves out is 0: A or B is then answered 1, and so is a function number that is that of
 * the other.
 */
typedef struct thawribbon_function {
    uint8_t function; /* its number, 0 to 7, and another than that of the other function */
    uint32_t a;       /* the ordinary place of its Device Correlation word: a multiple of 4 from 104h to FFCh */
    uint32_t b;       /* its trusted place: a multiple of 4 from 00Ch to FFCh */
} thawribbon_function;

/* What each of two functions has captured, for itself. The caller keeps it between packets. Those of a fresh board are
 * {THAWRIBBON_FRESH, THAWRIBBON_FRESH}. */
typedef struct thawribbon_captures {
    thawribbon_capture primary;
    thawribbon_capture alternate;
} thawribbon_captures;

/* The answer of a board of two functions to a packet. */
typedef struct thawribbon_pair_served {
    size_t length;            /* how many bytes of the reply are written: 12 or 16, or 0 where refused */
    uint8_t number;           /* 0 to 6 */
    thawribbon_captures kept; /* what to keep for the next packet */
} thawribbon_pair_served;

/* The answer of a walk. */
typedef struct thawribbon_walked {
    size_t count;   /* how many offsets are listed: 0 where refused */
    uint8_t number; /* 0, 1, 2, 11 or 12 */
    uint16_t place; /* with 11 and 12, the offset of the structure that holds the pointer, or 0 where it is the list's start; else 0 */
} thawribbon_walked;

/* The answer to the first question about a DVSEC record. Every field but the number is 0 where refused. */
typedef struct thawribbon_dvsec_header {
    uint8_t number; /* 0, 1, 8 or 9 */
    uint8_t revision;
    uint16_t vendor;
    uint16_t id;
    uint16_t length; /* of the whole record: its body is 0Ah bytes shorter */
} thawribbon_dvsec_header;

/* A part of a space: so many bytes from space + start on. Both are 0 where refused. */
typedef struct thawribbon_part {
    size_t start;
    size_t length;
} thawribbon_part;

/* The answer about a Dual-BDF record. Every field but the number is 0 where refused. */
typedef struct thawribbon_alternate {
    uint8_t number;   /* 0, 1, 8, 9 or 10 */
    uint8_t function; /* the alternate function, 0 to 7 */
    uint8_t device;   /* 0 to 31 */
} thawribbon_alternate;

/* A port of a switch: the buses behind it, ends included. */
typedef struct thawribbon_port {
    uint8_t secondary;   /* the first bus of the range, and the one right behind the port */
    uint8_t subordinate; /* the last bus of the range */
    uint8_t tcs;         /* 0: the port does not support TCS routing, so no trusted request leaves by it. Any other value: it does */
} thawribbon_port;

/* A router's answer to a packet. Every field but the number is 0 where nothing leaves. */
typedef struct thawribbon_routed {
    size_t length;  /* how many bytes leave: 12, 16 or 20 */
    uint8_t number; /* 0 to 6 */
    uint8_t leaves; /* 1: the packet leaves. 0: it does not, and with number 0 the verdict is Unsupported Request (UR) */
    uint8_t port;   /* the place in the list of the port that it leaves by, 0 to 31 */
} thawribbon_routed;

/*
 * The parts of a request. Those that a program does not name are 0: thawribbon_parts parts = {.kind = THAWRIBBON_TYPE0_READ, ..};
 * With enables 0 a write is answered "done" and changes nothing: name them, 0x0F for all four bytes. thawribbon_read_parts and
 * thawribbon_write_parts of the helpers do.
 *
 * The kind, the bus, the device, the function and the enables are uint8_t: a larger number is cut by the C compiler before the library sees
 * it, device 259 to 3. So check numbers that come from outside first. Two requests on their way with one requester and one tag have
 * completions that cannot be told apart.
 */
typedef struct thawribbon_parts {
    uint32_t offset;      /* a multiple of 4 up to FFCh */
    uint8_t kind;         /* the type code: THAWRIBBON_TYPE0_READ to THAWRIBBON_TRUSTED_WRITE */
    uint8_t requester[2]; /* who asks, as it is sent: the bus, then device * 8 + function */
    uint8_t tag;          /* by which the requester knows the completion */
    uint8_t bus;          /* whom it is for */
    uint8_t device;       /* 0 to 31 */
    uint8_t function;     /* 0 to 7 */
    uint8_t enables;      /* the first enables, 0 to 15, the bytes that a write may change: bit 0 is the byte at the lowest address; 0x0F for
                             all four, and not named it is 0. A read is given all four bytes whatever they are, by a board from version
                             0.8.0 on; one before gave 00h for those not enabled, so where one may answer, enable all four */
    uint8_t data[4];      /* what a write writes; for a read it is ignored */
} thawribbon_parts;

/* The answer of the writer. */
typedef struct thawribbon_written {
    size_t length;  /* how many bytes of the buffer are written: 12 or 16, or 0 where refused */
    uint8_t number; /* 0, 1 or 2 */
} thawribbon_written;

/* What a completion says. */
enum thawribbon_said {
    /* nothing, since it is refused */
    THAWRIBBON_SAID_NOTHING = 0,
    /* success with data: a read was done, and these are its four bytes; of a board before version 0.8.0, 00h in those not enabled */
    THAWRIBBON_SAID_DATA = 1,
    /* success without data: a write was done */
    THAWRIBBON_SAID_DONE = 2,
    /* Unsupported Request (UR): the access was not done */
    THAWRIBBON_SAID_UNSUPPORTED = 3
};

/* A completion that was read back. Every field but the number is 0 where refused. */
typedef struct thawribbon_heard {
    uint8_t number;       /* 0, or 3 to 6 */
    uint8_t said;         /* one of enum thawribbon_said */
    uint8_t completer[2]; /* who answers: the bus, then device * 8 + function */
    uint8_t requester[2]; /* who asked */
    uint8_t tag;          /* that of the request */
    uint8_t data[4];      /* with THAWRIBBON_SAID_DATA, what a read gave; else 0 */
} thawribbon_heard;

/*
 * The fields of a port's Multicast capability.
 *
 * All of them are 0 where the reading is refused. Seven zeros are fields that a reading can give, too: those of a capability that is not
 * enabled, at which no address hits. So nothing but the number says that there was none to read.
 */
typedef struct thawribbon_groups {
    uint64_t max_group; /* Max Group, 0 to 63 */
    uint64_t num_group; /* Num Group: the highest group, and not how many there are; at most Max Group */
    uint64_t enable;    /* 1: it is enabled. 0: it is not, and no address hits */
    uint64_t index;     /* Index Position, 0 to 63, and 12 or more where it is enabled: a group has 2 to the power of it addresses */
    uint64_t base;      /* the base address, where group 0 begins: bits 63:12 in their place, and below them 0 */
    uint64_t receive;   /* bit g is 1: a packet of group g leaves by this port, where it entered by another */
    uint64_t block_all; /* bit g is 1: a packet of group g that enters by this port is dropped */
} thawribbon_groups;

/* What becomes of a packet for an address. Not to be mistaken for a router's thawribbon_verdict, which has other names and numbers. */
typedef enum thawribbon_judgement {
    /* nothing is said, since it is refused */
    THAWRIBBON_JUDGED_NOTHING = 0,
    /* no hit: the address is in no group of the port that the packet enters by, or that port is not enabled */
    THAWRIBBON_JUDGED_NO_HIT = 1,
    /* it hits a group, and is dropped where it enters: that port's Block All bit for the group is set */
    THAWRIBBON_JUDGED_DROPPED = 2,
    /* it hits a group, and leaves by every other port whose own Receive bit for the group is set; there may be none */
    THAWRIBBON_JUDGED_LEAVES = 3
} thawribbon_judgement;

/* The answer about an address. Every field but the number is 0 where refused. */
typedef struct thawribbon_judged {
    uint32_t ports;  /* with THAWRIBBON_JUDGED_LEAVES, bit k is 1 where it leaves by port k of the list; else 0 */
    uint8_t number;  /* 0 or 1; of an offload that is refused, its number */
    uint8_t verdict; /* one of thawribbon_judgement */
    uint8_t group;   /* with THAWRIBBON_JUDGED_DROPPED and THAWRIBBON_JUDGED_LEAVES the group that is hit, 0 to 63; else 0 */
} thawribbon_judged;

/*
 * A structure of an extended list that is to be laid out: what it is, and how long.
 *
 * All three are uint16_t: a larger number is cut by the C compiler before the library sees it, version 65,537 to 1. thawribbon_structure_of
 * of the helpers takes any number, and cuts none.
 */
typedef struct thawribbon_structure {
    uint16_t id;      /* bits 15:0 of its header; 0000h is refused, since a first structure with it could look absent */
    uint16_t version; /* 0 to 15, bits 19:16 of its header */
    uint16_t length;  /* in bytes and with its header, 4 to 3,840 */
} thawribbon_structure;

/*
 * Answers a packet that a board receives: does the access and writes the completion.
 *
 * Takes the board's description, what it has captured (kept), its two spaces, which an access may change, the rules and the marks of each,
 * the packet, and the reply to write into. Of the bytes that a write enables, a bit that is 1 in the rules becomes the data bit. A bit that
 * is 1 in the marks becomes 0 where the data bit is 1, and stays where it is 0: error status bits are such. Every other bit stays, and an
 * ordinary write at A changes none. A space without marked bits has marks of 4,096 zeros: thawribbon_no_marks of the helpers. A read gives
 * all four bytes of its word, whatever it enables; an ordinary one at A gives the four trusted bytes at b.
 *
 * The lowest number that applies is given:
 *   0  served. `length` bytes of the reply are the completion, and those past them stay as lent. Its byte 6 is 00h where the access was
 *      done, and 20h where it is an Unsupported Request: then nothing but the reply has changed. The spaces are as rules and marks say,
 *      and `capture` is to be kept for the next packet: {0, 0, 0} while nothing is captured, else {1, bus, device}.
 *   1  the ordinary or trusted space, its rules or its marks aren't 4,096 bytes, a bit is 1 in the rules and in the marks of one space, the
 *      captured device is over 31, the function number is over 7, a or b is outside its range, or the edition is neither 1 nor 2. All rules
 *      and marks are looked at for every packet.
 *   2  the reply is under 16 bytes, also where 12 would be written.
 *   3  the packet has fewer than 12 bytes, whatever its byte 0 is.
 *   4  the type code isn't one of the six, or the edition is 2 and bit 7 of byte 0 is set.
 *   5  the packet isn't 12 bytes, plus 4 for a write, plus 4 if the digest bit is set.
 *   6  TC, Attr or the last enables aren't 0, or Length isn't 1.
 * Any number but 0 leaves spaces and reply unchanged, and gives length 0 and `kept` back, byte for byte. Rules, marks and packet are only
 * read.
 */
THAWRIBBON_MUST_USE thawribbon_served thawribbon_serve(thawribbon_description description, thawribbon_capture kept,
                                                       uint8_t *ordinary, size_t ordinary_length,
                                                       const uint8_t *ordinary_rules, size_t ordinary_rules_length,
                                                       const uint8_t *ordinary_marks, size_t ordinary_marks_length,
                                                       uint8_t *trusted, size_t trusted_length,
                                                       const uint8_t *trusted_rules, size_t trusted_rules_length,
                                                       const uint8_t *trusted_marks, size_t trusted_marks_length,
                                                       const uint8_t *packet, size_t packet_length,
                                                       uint8_t *reply, size_t reply_length);

/*
 * Resets a board: forgets what it has captured.
 *
 * Takes any capture, also one with a device over 31, and gives {0, 0, 0}. No byte of a space changes: none is lent.
 */
THAWRIBBON_MUST_USE thawribbon_capture thawribbon_reset(thawribbon_capture kept);

/*
 * Answers a packet that a board of two functions receives. The function that the packet names in byte 9 does the access and writes the
 * completion, as thawribbon_serve does it for a board that has that function alone, and the other stays as it is (rule 14.3).
 *
 * Takes the board's edition, what stays of the primary and of the alternate, what each has captured (kept), then of the primary and then of
 * the alternate the two spaces, which an access may change, with the rules and the marks of each, the packet, and the reply to write into.
 *
 * The lowest number that applies is given (rule 14.2):
 *   0  served. `length` bytes of the reply are the completion, and those past them stay as lent. It has the completer ID of the function
 *      that is named; its byte 6 is 00h where the access was done, and 20h where it is an Unsupported Request: then nothing but the reply
 *      has changed. A Type 1 request, whatever it names, and a request that names neither function are Unsupported Requests with the
 *      primary's completer ID (rule 14.4). `kept` is to be kept for the next packet, of each function {0, 0, 0} while it has captured
 *      nothing, else {1, bus, device}: only the one that is named may have captured something new.
 *   1  the two function numbers are equal, or what is lent for either function, also the one that is not named, is such as thawribbon_serve
 *      answers 1 to (rule 14.1). All rules and marks of both are looked at for every packet.
 *   2  the reply is under 16 bytes, also where 12 would be written.
 *   3, 4, 5, 6  the packet is such as thawribbon_serve gives this number to, whatever its byte 9 names.
 * Any number but 0 leaves the four spaces and the reply unchanged, and gives length 0 and `kept` back, byte for byte. Rules, marks and
 * packet are only read.
 */
THAWRIBBON_MUST_USE thawribbon_pair_served
thawribbon_serve_pair(uint32_t edition, thawribbon_function primary, thawribbon_function alternate, thawribbon_captures kept,
                      uint8_t *primary_ordinary, size_t primary_ordinary_length,
                      const uint8_t *primary_ordinary_rules, size_t primary_ordinary_rules_length,
                      const uint8_t *primary_ordinary_marks, size_t primary_ordinary_marks_length,
                      uint8_t *primary_trusted, size_t primary_trusted_length,
                      const uint8_t *primary_trusted_rules, size_t primary_trusted_rules_length,
                      const uint8_t *primary_trusted_marks, size_t primary_trusted_marks_length,
                      uint8_t *alternate_ordinary, size_t alternate_ordinary_length,
                      const uint8_t *alternate_ordinary_rules, size_t alternate_ordinary_rules_length,
                      const uint8_t *alternate_ordinary_marks, size_t alternate_ordinary_marks_length,
                      uint8_t *alternate_trusted, size_t alternate_trusted_length,
                      const uint8_t *alternate_trusted_rules, size_t alternate_trusted_rules_length,
                      const uint8_t *alternate_trusted_marks, size_t alternate_trusted_marks_length,
                      const uint8_t *packet, size_t packet_length,
                      uint8_t *reply, size_t reply_length);

/*
 * Resets a board of two functions: forgets what both have captured (rule 14.5).
 *
 * Takes any captures, also one with a device over 31, and gives {0, 0, 0} for each. No byte of a space changes: none is lent.
 */
THAWRIBBON_MUST_USE thawribbon_captures thawribbon_reset_pair(thawribbon_captures kept);

/*
 * Walks the compatible list of a space: it starts at byte 34h, and is empty if byte 06h bit 4 is 0.
 *
 * Takes the space and a room of 16-bit numbers to list the offsets in; room_length counts numbers, not bytes. The lowest number that
 * applies is given:
 *   0  a legal chain exists. The first `count` numbers of the room are its offsets in order, and the rest stays as lent.
 *   1  the space isn't 4,096 bytes.
 *   2  the room is under THAWRIBBON_COMPATIBLE_MAXIMUM numbers, also where the chain is shorter.
 *  11  no finite legal chain leads from the start to an end: the walk came to a pointer below the floor.
 *  12  no finite legal chain leads from the start to an end: the walk came to a pointer that leads to an offset already in the chain.
 * With 11 and 12, `place` is the offset of the structure that holds that pointer, the first at fault on the way; with 11 it is 0 where the
 * pointer is the list's start. Any number but 0 leaves the room unchanged and gives count 0. The space is only read.
 */
THAWRIBBON_MUST_USE thawribbon_walked thawribbon_walk_compatible(const uint8_t *space, size_t space_length,
                                                                 uint16_t *room, size_t room_length);

/*
 * Walks the extended list of a space: it starts at 100h, and is empty if the whole word there is zero. Otherwise its chain begins at 100h,
 * also where the ID there is 0000h: a capability that a supplier blanked is still in the list, and so is what is behind it. A DVSEC record
 * asked for at a blanked offset is refused with 8. Behind 100h a header is listed whatever it holds.
 *
 * Takes, gives and leaves unchanged what thawribbon_walk_compatible does, with the numbers 0, 1, 2, 11 and 12 of the same meanings; the
 * room must have THAWRIBBON_EXTENDED_MAXIMUM numbers.
 */
THAWRIBBON_MUST_USE thawribbon_walked thawribbon_walk_extended(const uint8_t *space, size_t space_length,
                                                               uint16_t *room, size_t room_length);

/*
 * Walks the trusted list of a space: it starts where bits 11:0 of the word at 004h say.
 *
 * Takes, gives and leaves unchanged what thawribbon_walk_compatible does, with the numbers 0, 1, 2, 11 and 12 of the same meanings; the
 * room must have THAWRIBBON_TRUSTED_MAXIMUM numbers.
 */
THAWRIBBON_MUST_USE thawribbon_walked thawribbon_walk_trusted(const uint8_t *space, size_t space_length,
                                                              uint16_t *room, size_t room_length);

/*
 * Reads the header of the DVSEC record at an offset of a space: vendor, revision, ID and length.
 *
 * Takes the space and the offset, which may be any number. The first of these that applies is given:
 *   1  the space isn't 4,096 bytes, or the offset isn't a multiple of 4 from 100h to FFCh.
 *   8  the ID there isn't 0023h, or the version isn't 1h.
 *   9  fewer than 0Ah bytes are left, or DVSEC Length is under 0Ah or ends past 1000h.
 *   0  otherwise: the fields are the record's.
 * Any number but 0 gives 0 for every field. The space is only read.
 */
THAWRIBBON_MUST_USE thawribbon_dvsec_header thawribbon_dvsec(const uint8_t *space, size_t space_length, size_t at);

/*
 * Tells where the register body of the DVSEC record at an offset lies: from space + start, which is at + 0Ah, `length` bytes, which is
 * DVSEC Length - 0Ah.
 *
 * Takes what thawribbon_dvsec takes, and is refused in the same cases, by {0, 0}; thawribbon_dvsec gives the number. The start tells a
 * refusal from a record that is nothing but its header, whose body is empty: that one's start is not 0. The space is only read.
 */
THAWRIBBON_MUST_USE thawribbon_part thawribbon_dvsec_body(const uint8_t *space, size_t space_length, size_t at);

/*
 * Reads the Dual-BDF record at an offset of a space: the alternate function and the device.
 *
 * Takes the space and the offset, which may be any number. The first of these that applies is given:
 *   1  the space isn't 4,096 bytes, or the offset isn't a multiple of 4 from 040h to 0FCh.
 *   8  byte 0 isn't 09h.
 *   9  offset + 12 is over 100h, the capability length isn't 0Ch, or DVSEC Length isn't 00Ch.
 *   8  the revision isn't 0, or it is neither vendor 8086h with ID 0009h nor vendor 1EC0h with ID 0002h.
 *  10  the function vector, bits 23:16 of the third word, hasn't exactly one bit set.
 *   0  otherwise: the function is that bit's place, and the device is bits 28:24.
 * Any number but 0 gives 0 for both. The space is only read.
 */
THAWRIBBON_MUST_USE thawribbon_alternate thawribbon_dual_bdf(const uint8_t *space, size_t space_length, size_t at);

/*
 * Routes a packet that a switch receives from its host: chooses the port that it leaves by, and writes what leaves there.
 *
 * Takes the list of ports, the packet, and the buffer to write what leaves into; ports_length counts ports, not bytes, and may be 0. The
 * first of these that applies is given (rule 10.4):
 *   1  the list has over 32 ports, a port's secondary bus is over its subordinate bus, or two ranges meet.
 *   2  the buffer for what leaves is under 20 bytes, also where 12 or 16 would be written.
 *   3  the packet has fewer than 12 bytes.
 *   4  the type code isn't one of the six.
 *   5  the packet isn't 12 bytes, plus 4 for a write, plus 4 if the digest bit is set.
 *   6  TC, Attr or the last enables aren't 0, or Length isn't 1.
 *   4  it is a Type 0 request, or a trusted request for a bus in the range of a port that does not support TCS routing.
 *   0  otherwise. `leaves` is 1 where a port's range has the request's bus: then `port` is that port's place in the list, and the first
 *      `length` bytes of the buffer are what leaves, as many as the packet has. They are the packet's own bytes, but for byte 0 of a
 *      Type 1 request for the port's secondary bus, which leaves as Type 0: 05h becomes 04h, 45h becomes 44h, and bit 7 stays. The buffer's
 *      other bytes stay as lent. `leaves` is 0 where no port's range has the bus: the verdict is Unsupported Request.
 * A router has no edition. It ignores bit 7 of byte 0 and lets it through, whatever board is behind it: one of edition 2 refuses what comes
 * with it.
 * Where nothing leaves, the buffer stays unchanged, and length and port are 0. Ports and packet are only read.
 */
THAWRIBBON_MUST_USE thawribbon_routed thawribbon_route(const thawribbon_port *ports, size_t ports_length,
                                                       const uint8_t *packet, size_t packet_length,
                                                       uint8_t *leaving, size_t leaving_length);

/*
 * Writes a request from its parts. It needs no board: a test host sends what it writes.
 *
 * Takes the parts and the buffer to write into. The lowest number that applies is given:
 *   0  it is written. The first `length` bytes of the buffer are the request: 12 for a read and 16 for a write, which ends with the data.
 *      Its digest bit is clear, and so are its reserved bits and bit 7 of byte 0: boards of both editions answer it alike. The buffer's
 *      other bytes stay as lent.
 *   1  the kind is none of the six, the device is over 31, the function over 7, the offset over FFCh or not a multiple of 4, or the
 *      enables over 15. A read's data is ignored.
 *   2  the buffer is shorter than those 12 or 16 bytes.
 * Any number but 0 leaves the whole buffer unchanged, and gives length 0.
 */
THAWRIBBON_MUST_USE thawribbon_written thawribbon_write_request(thawribbon_parts parts, uint8_t *buffer, size_t buffer_length);

/*
 * Reads a completion back: whether the access was done, a read's data, who answers whom, and the request's tag. It needs no board.
 *
 * Takes the completion's bytes, and no others behind them. The lowest number that applies is given:
 *   0  it is a completion. `said` is THAWRIBBON_SAID_DATA, THAWRIBBON_SAID_DONE or THAWRIBBON_SAID_UNSUPPORTED: so number 0 alone does not
 *      say that the access was done.
 *   3  it has fewer than 12 bytes.
 *   4  its first byte is neither 4Ah nor 0Ah.
 *   5  it hasn't 16 bytes with first byte 4Ah, or 12 with 0Ah.
 *   6  any other byte is one that no reply with that first byte has at its place. Fixed are, from byte 1 on, 00 00 01 with first byte 4Ah
 *      and 00 00 00 with 0Ah; byte 6, 00h with 4Ah, and 00h or 20h with 0Ah; byte 7, 04h; byte 11, 00h.
 * Any number but 0 gives 0 for every field. The bytes are only read.
 */
THAWRIBBON_MUST_USE thawribbon_heard thawribbon_read_completion(const uint8_t *completion, size_t completion_length);

/*
 * Reads the Multicast capability at an offset of a port's space, and gives the number.
 *
 * Takes the space, the offset, which may be any number, and where to write the fields. The first of these that applies is given:
 *   1  the space isn't 4,096 bytes, or the offset isn't a multiple of 4 from 100h to FFCh.
 *   8  the ID there isn't 0012h, or the version isn't 1h.
 *   9  fewer than 28h bytes are left.
 *  13  Num Group is over Max Group, or Index Position is under 12 and Enable is set.
 *   0  otherwise: the fields are the capability's.
 * Any number but 0 gives 0 for every field, and seven zeros are also what a capability may hold that is not enabled: look at the number.
 * `groups` is not NULL, overlaps no byte of the space, and all of it is written, whatever the number. The space is only read.
 */
THAWRIBBON_MUST_USE uint8_t thawribbon_multicast(const uint8_t *space, size_t space_length, size_t at, thawribbon_groups *groups);

/*
 * Judges an address: what becomes of a packet for it that enters a switch by one of its ports, given each port's Multicast capability.
 *
 * Takes the list of ports, the place in it of the one that the packet enters by, and the address; both may be any number. ports_length
 * counts ports, not bytes. The first of these that applies is given:
 *   1  the list has over 32 ports, `entering` is no place in it, or the fields of any port are such as thawribbon_multicast gives for no
 *      space: Max Group or Index Position over 63, Enable over 1, a bit of the base below bit 12, or what is refused there with 13.
 *   0  otherwise: it is judged. Where the entering port is enabled, an address at or above its base hits the group that is the whole part
 *      of (address - base) / 2 to the power of its Index Position, if that is at most its Num Group; all else is THAWRIBBON_JUDGED_NO_HIT.
 *      Where its Block All bit for the group is set, it is THAWRIBBON_JUDGED_DROPPED. Else it is THAWRIBBON_JUDGED_LEAVES, with a bit in
 *      `ports` for every other port whose own Receive bit for the group is set: of those ports nothing else counts.
 * No address is an exception: a group that would end past the largest address ends with it. With number 1, all else is 0. The list is only
 * read.
 */
THAWRIBBON_MUST_USE thawribbon_judged thawribbon_judge(const thawribbon_groups *ports, size_t ports_length, size_t entering,
                                                       uint64_t address);

/*
 * Plans a layout: proposes where the structures of a new board's extended list stand, in the given order, and gives the number.
 *
 * Takes the structures, and a room of 16-bit numbers to put the offsets into; structures_length counts structures, and room_length numbers.
 * The lowest number that applies is given:
 *   0  the first numbers of the room are the offsets, one a structure, and the rest stays as lent. thawribbon_check_layout accepts them, and
 *      no layout that it accepts has any structure lower: the first is at 100h, and each of the others at the first multiple of 4 behind
 *      the one before.
 *   1  there are no structures or over 960, an ID is 0000h, a version over 15, or a length outside 4 to 3,840.
 *   2  the room has fewer numbers than there are structures.
 *  14  there is no layout that is accepted: the lengths before the last, each rounded up to 4, plus the last as it stands exceed 3,840.
 * Any number but 0 leaves the room unchanged. The structures are only read.
 */
THAWRIBBON_MUST_USE uint8_t thawribbon_plan_layout(const thawribbon_structure *structures, size_t structures_length,
                                                   uint16_t *room, size_t room_length);

/*
 * Checks a layout, wherever it comes from, and gives the number.
 *
 * Takes the structures, and the offsets that are proposed for them, which may be any numbers and any count of them. The lowest number that
 * applies is given:
 *   0  it is accepted: there is one offset a structure, the first is 100h, all are multiples of 4, in the given order and rising, no two
 *      structures overlap, and all end by 1000h.
 *   1  the structures are such as thawribbon_plan_layout refuses with 1.
 *  18  it is not accepted.
 * All is only read.
 */
THAWRIBBON_MUST_USE uint8_t thawribbon_check_layout(const thawribbon_structure *structures, size_t structures_length,
                                                    const uint16_t *offsets, size_t offsets_length);

/*
 * Writes the headers of a layout into a space, where thawribbon_check_layout accepts it, and gives the number. It asks that itself.
 *
 * Takes the structures, their offsets, and the space. The lowest number that applies is given:
 *   0  the header word of each structure is written at its offset: its ID in bits 15:0, its version in bits 19:16, and in bits 31:20 the
 *      offset of the next, which is 0 in the last. No other byte of the space has changed, and thawribbon_walk_extended lists exactly these
 *      offsets in it.
 *   1  the space isn't 4,096 bytes, or the structures are such as thawribbon_plan_layout refuses with 1.
 *  18  the layout is not accepted.
 * Any number but 0 leaves the space unchanged. Structures and offsets are only read.
 */
THAWRIBBON_MUST_USE uint8_t thawribbon_write_layout(const thawribbon_structure *structures, size_t structures_length,
                                                    const uint16_t *offsets, size_t offsets_length,
                                                    uint8_t *space, size_t space_length);

/* ---- Helpers: inline, over the functions above, and not proved. ---- */

/* The 4,096 bytes of a space, of its rules, or of its marks. A type of its own, so that a compiler sees a buffer of another size. */
typedef struct thawribbon_bytes {
    uint8_t at[THAWRIBBON_SPACE];
} thawribbon_bytes;

/* The marks of a space that has no bits that are cleared by writing 1. Any number of spaces may have them. */
THAWRIBBON_MAY_USE static const thawribbon_bytes thawribbon_no_marks = {{0}};

/* A space with its rules and its marks, lent to a board. One of them that is NULL counts as a buffer without bytes: answer 1, also for marks
 * that were forgotten. So do all, where one that is written overlaps another. Spaces may have the same rules, and the same marks. */
typedef struct thawribbon_space {
    thawribbon_bytes *bytes;       /* what accesses read and write */
    const thawribbon_bytes *rules; /* a bit that is 1 marks a bit that can be written */
    const thawribbon_bytes *marks; /* a bit that is 1 marks a bit that is cleared by writing 1; no bit may be marked here and in the rules.
                                      &thawribbon_no_marks where there is none */
} thawribbon_space;

/*
 * A board, which keeps what it captures. Every member may be read and set between packets. Without an edition it answers 1 to every packet.
 * In C, with each member's name:
 *   static thawribbon_bytes ordinary, trusted, rules;
 *   static thawribbon_board board = {
 *       .description = {.function = 0, .a = 0x104, .b = 0x00C, .edition = THAWRIBBON_EDITION_1},
 *       .capture = THAWRIBBON_FRESH,
 *       .ordinary = {.bytes = &ordinary, .rules = &rules, .marks = &thawribbon_no_marks},
 *       .trusted = {.bytes = &trusted, .rules = &rules, .marks = &thawribbon_no_marks},
 *   };
 */
typedef struct thawribbon_board {
    thawribbon_description description;
    thawribbon_capture capture;
    thawribbon_space ordinary;
    thawribbon_space trusted;
} thawribbon_board;

/* What became of a packet. */
typedef enum thawribbon_outcome {
    /* the access was done. A write changed what the enables, the rules and the marks let it change, which may be nothing */
    THAWRIBBON_DONE = 0,
    /* Unsupported Request: the access was not done, and nothing but the completion has changed */
    THAWRIBBON_UNSUPPORTED_REQUEST = 1,
    /* there is no completion, nothing has changed, and the number says why */
    THAWRIBBON_REFUSED = 2
} thawribbon_outcome;

/* A board's answer to a packet. */
typedef struct thawribbon_answer {
    thawribbon_outcome outcome;
    uint8_t number;                       /* why it is refused: 1, or 3 to 6; 0 where it is not */
    size_t length;                        /* the bytes of the completion: 12 or 16; 0 where refused */
    uint8_t completion[THAWRIBBON_REPLY]; /* what goes back to the requester, also an Unsupported Request; FFh past its length */
} thawribbon_answer;

/* The capture of a fresh board. */
THAWRIBBON_MUST_USE static inline thawribbon_capture thawribbon_fresh(void)
{
    const thawribbon_capture nothing = THAWRIBBON_FRESH;
    return nothing;
}

/* What became of a packet, by its number and the reply that was lent. */
static inline thawribbon_outcome thawribbon_outcome_by(uint8_t number, const uint8_t *reply)
{
    if (number != THAWRIBBON_SERVED) {
        return THAWRIBBON_REFUSED;
    }
    return reply[THAWRIBBON_STATUS] == THAWRIBBON_STATUS_SUCCESSFUL ? THAWRIBBON_DONE : THAWRIBBON_UNSUPPORTED_REQUEST;
}

/* What became of a packet, by what thawribbon_serve gave and the reply that it was lent. Only status 00h says that it was done. */
THAWRIBBON_MUST_USE static inline thawribbon_outcome thawribbon_outcome_of(thawribbon_served served, const uint8_t *reply)
{
    return thawribbon_outcome_by(served.number, reply);
}

/* The same, by what thawribbon_serve_pair gave. */
THAWRIBBON_MUST_USE static inline thawribbon_outcome thawribbon_pair_outcome_of(thawribbon_pair_served served, const uint8_t *reply)
{
    return thawribbon_outcome_by(served.number, reply);
}

/* An answer before its packet is served: FFh in the place of a completion. */
static inline thawribbon_answer thawribbon_answer_none(void)
{
    const thawribbon_answer none = {THAWRIBBON_REFUSED, 0, 0,
                                    {0xFF, 0xFF, 0xFF, 0xFF, 0xFF, 0xFF, 0xFF, 0xFF, 0xFF, 0xFF, 0xFF, 0xFF, 0xFF, 0xFF, 0xFF, 0xFF}};
    return none;
}

/* Says in an answer what became of its packet, by the number and the length of the completion, which it has already. */
static inline thawribbon_outcome thawribbon_answer_by(thawribbon_answer *answer, uint8_t number, size_t length)
{
    answer->number = number;
    answer->length = length;
    answer->outcome = thawribbon_outcome_by(number, answer->completion);
    return answer->outcome;
}

/* A board's buffers on their way to thawribbon_serve: those that are written, those that are read, and how long they are. */
static inline uint8_t *thawribbon_bytes_written(thawribbon_bytes *bytes)
{
    return bytes == NULL ? NULL : bytes->at;
}

static inline const uint8_t *thawribbon_bytes_read(const thawribbon_bytes *bytes)
{
    return bytes == NULL ? NULL : bytes->at;
}

static inline size_t thawribbon_bytes_length(const thawribbon_bytes *bytes)
{
    return bytes == NULL ? 0 : sizeof bytes->at;
}

/* Whether two buffers, of a byte each at least, have one in common. A difference below 0 is a very large number here. */
static inline int thawribbon_overlap(const void *one, size_t one_length, const void *other, size_t other_length)
{
    return (uintptr_t)one - (uintptr_t)other + (one_length - 1) < one_length + other_length - 1;
}

/* Whether a buffer overlaps what is only read of a space: its rules or its marks. */
static inline int thawribbon_overlap_read(const void *one, size_t one_length, thawribbon_space space)
{
    return thawribbon_overlap(one, one_length, space.rules, THAWRIBBON_SPACE) |
           thawribbon_overlap(one, one_length, space.marks, THAWRIBBON_SPACE);
}

/* Whether a buffer overlaps a space, its rules or its marks. */
static inline int thawribbon_overlap_space(const void *one, size_t one_length, thawribbon_space space)
{
    return thawribbon_overlap(one, one_length, space.bytes, THAWRIBBON_SPACE) | thawribbon_overlap_read(one, one_length, space);
}

/* Whether a buffer overlaps either of two spaces, or their rules or marks. */
static inline int thawribbon_overlap_spaces(const void *one, size_t one_length, thawribbon_space ordinary, thawribbon_space trusted)
{
    return thawribbon_overlap_space(one, one_length, ordinary) | thawribbon_overlap_space(one, one_length, trusted);
}

/* Whether either of two spaces overlaps the other, or the rules or marks of either. */
static inline int thawribbon_overlap_within(thawribbon_space ordinary, thawribbon_space trusted)
{
    return thawribbon_overlap_read(ordinary.bytes, THAWRIBBON_SPACE, ordinary) |
           thawribbon_overlap_read(trusted.bytes, THAWRIBBON_SPACE, ordinary) |
           thawribbon_overlap_read(trusted.bytes, THAWRIBBON_SPACE, trusted) |
           thawribbon_overlap_space(ordinary.bytes, THAWRIBBON_SPACE, trusted);
}

/* Whether a packet, of a byte at least, overlaps either of two spaces. */
static inline int thawribbon_overlap_packet(const uint8_t *packet, size_t packet_length,
                                            thawribbon_space ordinary, thawribbon_space trusted)
{
    return thawribbon_overlap(packet, packet_length, ordinary.bytes, THAWRIBBON_SPACE) |
           thawribbon_overlap(packet, packet_length, trusted.bytes, THAWRIBBON_SPACE);
}

/* Whether what thawribbon_board_serve writes (spaces, board, answer) overlaps anything that it is lent: twenty-six comparisons. NULL counts
 * as 4,096 bytes here, which changes nothing: it is answered 1 in any case. */
static inline int thawribbon_board_overlaps(const thawribbon_board *board, const uint8_t *packet, size_t packet_length,
                                            const thawribbon_answer *answer)
{
    const thawribbon_space ordinary = board->ordinary, trusted = board->trusted;
    const int structs = thawribbon_overlap_spaces(board, sizeof *board, ordinary, trusted) |
                        thawribbon_overlap_spaces(answer, sizeof *answer, ordinary, trusted) |
                        thawribbon_overlap(board, sizeof *board, answer, sizeof *answer);
    const int packets = packet_length != 0 && (thawribbon_overlap_packet(packet, packet_length, ordinary, trusted) |
                                               thawribbon_overlap(packet, packet_length, board, sizeof *board) |
                                               thawribbon_overlap(packet, packet_length, answer, sizeof *answer));
    return thawribbon_overlap_within(ordinary, trusted) | structs | packets;
}

/*
 * Has a board answer a packet, and keeps what it captures: thawribbon_serve over a board.
 *
 * Gives what became of the packet, and sets every member of the answer. Only THAWRIBBON_DONE means that the access was done. The completion
 * goes back to the requester in both cases that have one, THAWRIBBON_DONE and THAWRIBBON_UNSUPPORTED_REQUEST; where refused, it is FFh
 * throughout. The packet may be any bytes of any length; the board and the answer are not NULL.
 *
 * Where a space, the board or the answer overlaps another buffer, no space is lent to thawribbon_serve: it answers 1, and nothing is
 * written but the answer.
 */
THAWRIBBON_MUST_USE static inline thawribbon_outcome thawribbon_board_serve(thawribbon_board *board,
                                                                            const uint8_t *packet, size_t packet_length,
                                                                            thawribbon_answer *answer)
{
    const thawribbon_space nothing = {NULL, NULL, NULL};
    const int overlaps = thawribbon_board_overlaps(board, packet, packet_length, answer);
    const thawribbon_space ordinary = overlaps ? nothing : board->ordinary, trusted = overlaps ? nothing : board->trusted;
    const thawribbon_description description = board->description;
    const thawribbon_capture kept = board->capture;
    thawribbon_served served;
    *answer = thawribbon_answer_none(); /* from here on the board may be overwritten, where they overlap */
    served = thawribbon_serve(description, kept,
                              thawribbon_bytes_written(ordinary.bytes), thawribbon_bytes_length(ordinary.bytes),
                              thawribbon_bytes_read(ordinary.rules), thawribbon_bytes_length(ordinary.rules),
                              thawribbon_bytes_read(ordinary.marks), thawribbon_bytes_length(ordinary.marks),
                              thawribbon_bytes_written(trusted.bytes), thawribbon_bytes_length(trusted.bytes),
                              thawribbon_bytes_read(trusted.rules), thawribbon_bytes_length(trusted.rules),
                              thawribbon_bytes_read(trusted.marks), thawribbon_bytes_length(trusted.marks),
                              packet, packet_length, answer->completion, sizeof answer->completion);
    if (!overlaps) {
        board->capture = served.capture;
    }
    return thawribbon_answer_by(answer, served.number, served.length);
}

/* Resets a board: forgets what it has captured, and changes no byte. */
static inline void thawribbon_board_reset(thawribbon_board *board)
{
    board->capture = thawribbon_reset(board->capture);
}

/* One of the two functions of a board: what stays of it, what it has captured, and its two spaces. */
typedef struct thawribbon_side {
    thawribbon_function description;
    thawribbon_capture capture;
    thawribbon_space ordinary;
    thawribbon_space trusted;
} thawribbon_side;

/*
 * A board of two functions with different numbers behind one device, which keeps what each captures. Every member may be read and set
 * between packets. Without an edition, or with one number twice, it answers 1 to every packet. In C, with each member's name:
 *   static thawribbon_bytes ordinary[2], trusted[2], rules;
 *   static thawribbon_pair pair = {
 *       .edition = THAWRIBBON_EDITION_1,
 *       .primary = {
 *           .description = {.function = 0, .a = 0x104, .b = 0x00C},
 *           .capture = THAWRIBBON_FRESH,
 *           .ordinary = {.bytes = &ordinary[0], .rules = &rules, .marks = &thawribbon_no_marks},
 *           .trusted = {.bytes = &trusted[0], .rules = &rules, .marks = &thawribbon_no_marks},
 *       },
 *       .alternate = {
 *           .description = {.function = 1, .a = 0x104, .b = 0x00C},
 *           .capture = THAWRIBBON_FRESH,
 *           .ordinary = {.bytes = &ordinary[1], .rules = &rules, .marks = &thawribbon_no_marks},
 *           .trusted = {.bytes = &trusted[1], .rules = &rules, .marks = &thawribbon_no_marks},
 *       },
 *   };
 */
typedef struct thawribbon_pair {
    uint32_t edition; /* of byte 0, for both: THAWRIBBON_EDITION_1 or THAWRIBBON_EDITION_2 */
    thawribbon_side primary;
    thawribbon_side alternate;
} thawribbon_pair;

/* Whether a space of one function overlaps a space of the other, or rules or marks of it. */
static inline int thawribbon_overlap_sides(const thawribbon_side *one, const thawribbon_side *other)
{
    return thawribbon_overlap_spaces(one->ordinary.bytes, THAWRIBBON_SPACE, other->ordinary, other->trusted) |
           thawribbon_overlap_spaces(one->trusted.bytes, THAWRIBBON_SPACE, other->ordinary, other->trusted) |
           thawribbon_overlap_read(other->ordinary.bytes, THAWRIBBON_SPACE, one->ordinary) |
           thawribbon_overlap_read(other->ordinary.bytes, THAWRIBBON_SPACE, one->trusted) |
           thawribbon_overlap_read(other->trusted.bytes, THAWRIBBON_SPACE, one->ordinary) |
           thawribbon_overlap_read(other->trusted.bytes, THAWRIBBON_SPACE, one->trusted);
}

/* Whether a buffer overlaps a space, rules or marks of either function. */
static inline int thawribbon_overlap_pair(const void *one, size_t one_length, const thawribbon_pair *pair)
{
    return thawribbon_overlap_spaces(one, one_length, pair->primary.ordinary, pair->primary.trusted) |
           thawribbon_overlap_spaces(one, one_length, pair->alternate.ordinary, pair->alternate.trusted);
}

/* Whether what thawribbon_pair_serve writes (four spaces, pair, answer) overlaps anything that it is lent: sixty-nine comparisons. NULL
 * counts as 4,096 bytes here too. */
static inline int thawribbon_pair_overlaps(const thawribbon_pair *pair, const uint8_t *packet, size_t packet_length,
                                           const thawribbon_answer *answer)
{
    const thawribbon_side *primary = &pair->primary, *alternate = &pair->alternate;
    const int spaces = thawribbon_overlap_within(primary->ordinary, primary->trusted) |
                       thawribbon_overlap_within(alternate->ordinary, alternate->trusted) |
                       thawribbon_overlap_sides(primary, alternate);
    const int structs = thawribbon_overlap_pair(pair, sizeof *pair, pair) |
                        thawribbon_overlap_pair(answer, sizeof *answer, pair) |
                        thawribbon_overlap(pair, sizeof *pair, answer, sizeof *answer);
    const int packets = packet_length != 0 &&
                        (thawribbon_overlap_packet(packet, packet_length, primary->ordinary, primary->trusted) |
                         thawribbon_overlap_packet(packet, packet_length, alternate->ordinary, alternate->trusted) |
                         thawribbon_overlap(packet, packet_length, pair, sizeof *pair) |
                         thawribbon_overlap(packet, packet_length, answer, sizeof *answer));
    return spaces | structs | packets;
}

/*
 * Has a board of two functions answer a packet, and keeps what each captures: thawribbon_serve_pair over a pair.
 *
 * Gives what became of the packet, and sets every member of the answer, as thawribbon_board_serve does. Only THAWRIBBON_DONE means that the
 * access was done. The pair and the answer are not NULL.
 *
 * Where a space, the pair or the answer overlaps another buffer, also one of the other function, the number is 1, and nothing is written
 * but the answer.
 */
THAWRIBBON_MUST_USE static inline thawribbon_outcome thawribbon_pair_serve(thawribbon_pair *pair,
                                                                           const uint8_t *packet, size_t packet_length,
                                                                           thawribbon_answer *answer)
{
    const int overlaps = thawribbon_pair_overlaps(pair, packet, packet_length, answer);
    const thawribbon_side primary = pair->primary, alternate = pair->alternate;
    const thawribbon_captures kept = {primary.capture, alternate.capture};
    thawribbon_pair_served served;
    *answer = thawribbon_answer_none(); /* from here on pair or packet may be overwritten, where they overlap */
    if (overlaps) {
        return thawribbon_answer_by(answer, THAWRIBBON_BAD_DESCRIPTION, 0);
    }
    served = thawribbon_serve_pair(pair->edition, primary.description, alternate.description, kept,
                                   thawribbon_bytes_written(primary.ordinary.bytes), thawribbon_bytes_length(primary.ordinary.bytes),
                                   thawribbon_bytes_read(primary.ordinary.rules), thawribbon_bytes_length(primary.ordinary.rules),
                                   thawribbon_bytes_read(primary.ordinary.marks), thawribbon_bytes_length(primary.ordinary.marks),
                                   thawribbon_bytes_written(primary.trusted.bytes), thawribbon_bytes_length(primary.trusted.bytes),
                                   thawribbon_bytes_read(primary.trusted.rules), thawribbon_bytes_length(primary.trusted.rules),
                                   thawribbon_bytes_read(primary.trusted.marks), thawribbon_bytes_length(primary.trusted.marks),
                                   thawribbon_bytes_written(alternate.ordinary.bytes), thawribbon_bytes_length(alternate.ordinary.bytes),
                                   thawribbon_bytes_read(alternate.ordinary.rules), thawribbon_bytes_length(alternate.ordinary.rules),
                                   thawribbon_bytes_read(alternate.ordinary.marks), thawribbon_bytes_length(alternate.ordinary.marks),
                                   thawribbon_bytes_written(alternate.trusted.bytes), thawribbon_bytes_length(alternate.trusted.bytes),
                                   thawribbon_bytes_read(alternate.trusted.rules), thawribbon_bytes_length(alternate.trusted.rules),
                                   thawribbon_bytes_read(alternate.trusted.marks), thawribbon_bytes_length(alternate.trusted.marks),
                                   packet, packet_length, answer->completion, sizeof answer->completion);
    pair->primary.capture = served.kept.primary;
    pair->alternate.capture = served.kept.alternate;
    return thawribbon_answer_by(answer, served.number, served.length);
}

/* Resets a board of two functions: forgets what both have captured, and changes no byte. */
static inline void thawribbon_pair_reset(thawribbon_pair *pair)
{
    const thawribbon_captures kept = {pair->primary.capture, pair->alternate.capture};
    const thawribbon_captures after = thawribbon_reset_pair(kept);
    pair->primary.capture = after.primary;
    pair->alternate.capture = after.alternate;
}

/* Whether a Dual-BDF record of a board names the board's alternate. */
typedef enum thawribbon_named {
    /* it does: by its function, and by the device of whatever the two functions have captured, one of them at least */
    THAWRIBBON_NAMED_ALTERNATE = 0,
    /* it has the alternate's function. Neither function has captured a device, so nothing says whether the record's is this board's */
    THAWRIBBON_NAMED_UNCAPTURED = 1,
    /* it does not: it has another function, or another device than one of the two functions has captured */
    THAWRIBBON_NAMED_OTHER = 2,
    /* there is no such record, and the number says why */
    THAWRIBBON_NAMED_REFUSED = 3
} thawribbon_named;

/* Whether a function has captured another device than this one. */
static inline int thawribbon_captured_other(thawribbon_capture capture, uint8_t device)
{
    return capture.captured != 0 && capture.device != device;
}

/*
 * Reads the Dual-BDF record at an offset of the primary's ordinary space, by thawribbon_dual_bdf, and says whether it names the alternate of
 * this board.
 *
 * Sets every member of `record` to what thawribbon_dual_bdf gives. Only THAWRIBBON_NAMED_ALTERNATE means that function and device of the
 * record are those of this board's alternate. The device of a record is that of both functions, and a board knows its device only by what
 * it has captured: so it is compared with each capture that there is, and THAWRIBBON_NAMED_UNCAPTURED says that there is none. Whether the
 * pair is well described is not looked at: with one number twice the record's function is the primary's too, and serving answers 1. With
 * THAWRIBBON_NAMED_REFUSED, record->number says why: 1, also where the space is NULL, 8, 9 or 10. The offset may be any number. The pair,
 * which is only read, and `record` are not NULL.
 */
THAWRIBBON_MUST_USE static inline thawribbon_named thawribbon_pair_dual_bdf(const thawribbon_pair *pair, size_t at,
                                                                            thawribbon_alternate *record)
{
    const thawribbon_bytes *space = pair->primary.ordinary.bytes;
    *record = thawribbon_dual_bdf(thawribbon_bytes_read(space), thawribbon_bytes_length(space), at);
    if (record->number != THAWRIBBON_SERVED) {
        return THAWRIBBON_NAMED_REFUSED;
    }
    if (record->function != pair->alternate.description.function ||
        thawribbon_captured_other(pair->primary.capture, record->device) ||
        thawribbon_captured_other(pair->alternate.capture, record->device)) {
        return THAWRIBBON_NAMED_OTHER;
    }
    return pair->primary.capture.captured != 0 || pair->alternate.capture.captured != 0 ? THAWRIBBON_NAMED_ALTERNATE
                                                                                         : THAWRIBBON_NAMED_UNCAPTURED;
}

/* The four bytes that a read gave; NULL where the answer has none: a write, an Unsupported Request, a refusal. */
THAWRIBBON_MUST_USE static inline const uint8_t *thawribbon_data(const thawribbon_answer *answer)
{
    return answer->length > THAWRIBBON_DATA ? answer->completion + THAWRIBBON_DATA : NULL;
}

/* What an answer number says, in words; they stay as long as the program runs. */
THAWRIBBON_MUST_USE static inline const char *thawribbon_text(unsigned number)
{
    switch (number) {
    case THAWRIBBON_SERVED:
        return "served, though the completion or the router's verdict may be Unsupported Request";
    case THAWRIBBON_BAD_DESCRIPTION:
        return "a space, rules or marks of 4,096 bytes are not lent, a bit is in both the rules and the marks of a space, "
               "a captured device is over 31, a function number or A or B is outside its range, the edition is neither 1 nor 2, "
               "the two functions of a board have one number, a record is asked for where none may stand, "
               "a list has over 32 ports, a secondary bus over its subordinate bus, or two ranges that meet, "
               "a packet enters by no port of the list, a port's Multicast fields are such as no reading gives, "
               "what leaves overlaps the ports or the packet, what is heard overlaps the board, "
               "structures to be laid out are none or over 960, one has ID 0000h, a version over 15 or a length outside 4 to 3,840, "
               "a layout, its structures and its space overlap, or a request has a kind outside the six, "
               "a device over 31, a function over 7, an offset over FFCh or not a multiple of 4, or enables over 15";
    case THAWRIBBON_NO_ROOM:
        return "the reply is under 16 bytes, the list room is under the list's maximum, "
               "the buffer for what leaves is under 20 bytes, the buffer for a request is shorter than its bytes, "
               "or the room for a layout has fewer numbers than there are structures";
    case THAWRIBBON_SHORT_PACKET:
        return "the packet or the completion has fewer than 12 bytes";
    case THAWRIBBON_UNKNOWN_TYPE:
        return "the packet's type code is not one of the six that are served, bit 7 of its byte 0 is set and the board is of edition 2, "
               "or the router does not pass it on: it is Type 0, or it is trusted and its port does not support TCS routing; "
               "or the completion's first byte is neither 4Ah nor 0Ah";
    case THAWRIBBON_WRONG_LENGTH:
        return "the packet's length does not fit its type and digest bit, or the completion's length does not fit its first byte";
    case THAWRIBBON_WRONG_FIELD:
        return "a fixed field of the packet's header has another value, or the completion has a byte that no reply has at its place";
    case THAWRIBBON_OTHER_STRUCTURE:
        return "this is not the structure asked for";
    case THAWRIBBON_WRONG_EXTENT:
        return "the structure has a wrong length, or runs out of its space";
    case THAWRIBBON_NOT_ONE_FUNCTION:
        return "the function vector does not have exactly one bit";
    case THAWRIBBON_BELOW_FLOOR:
        return "a pointer of the list is below its floor";
    case THAWRIBBON_COMES_BACK:
        return "a pointer of the list leads to an offset that is already in the chain";
    case THAWRIBBON_WRONG_GROUPS:
        return "the Multicast capability has a Num Group over its Max Group, or is enabled with an Index Position under 12";
    case THAWRIBBON_NO_LAYOUT:
        return "no layout of these structures is acceptable: "
               "the lengths before the last, each rounded up to 4, plus the last as it stands exceed 3,840";
    case THAWRIBBON_NOT_ACCEPTED:
        return "the layout is not accepted: it does not have one offset a structure, the first is not 100h, one is not a multiple of 4, "
               "they do not rise in the given order, two structures overlap, or one ends past 1000h";
    default:
        return "a number that is no answer";
    }
}

/* What became of a packet, in words. */
THAWRIBBON_MUST_USE static inline const char *thawribbon_answer_text(const thawribbon_answer *answer)
{
    if (answer->outcome == THAWRIBBON_REFUSED) {
        return thawribbon_text(answer->number);
    }
    return answer->outcome == THAWRIBBON_DONE ? "the access was done" : "Unsupported Request: the access was not done";
}

/* Whether a Dual-BDF record names a board's alternate, in words. */
THAWRIBBON_MUST_USE static inline const char *thawribbon_named_text(thawribbon_named named, const thawribbon_alternate *record)
{
    switch (named) {
    case THAWRIBBON_NAMED_ALTERNATE:
        return "the record names the board's alternate";
    case THAWRIBBON_NAMED_UNCAPTURED:
        return "the record has the alternate's function, and neither function has captured a device to compare with its own";
    case THAWRIBBON_NAMED_OTHER:
        return "the record has another function than the alternate's, or another device than was captured";
    case THAWRIBBON_NAMED_REFUSED:
    default:
        return thawribbon_text(record->number);
    }
}

/* What a router says of a packet. */
typedef enum thawribbon_verdict {
    /* the packet leaves by a port */
    THAWRIBBON_LEAVES = 0,
    /* Unsupported Request: no port's range has the request's bus, and nothing leaves (rule 10.7) */
    THAWRIBBON_NO_PORT = 1,
    /* refused: nothing leaves, and the number says why */
    THAWRIBBON_NOT_ROUTED = 2
} thawribbon_verdict;

/* What leaves a switch, and by which port. */
typedef struct thawribbon_leaving {
    thawribbon_verdict verdict;
    uint8_t number;                    /* why it is not routed: 1, or 3 to 6; 0 where it is not refused */
    uint8_t port;                      /* the place in the list of the port that it leaves by; 0 where nothing leaves */
    size_t length;                     /* the bytes that leave: 12, 16 or 20; 0 where nothing leaves */
    uint8_t bytes[THAWRIBBON_LEAVING]; /* what leaves; FFh past its length, and throughout where nothing leaves */
} thawribbon_leaving;

/* What a router says of a packet, by what thawribbon_route gave. Only a 1 in `leaves` says that the packet leaves. */
THAWRIBBON_MUST_USE static inline thawribbon_verdict thawribbon_verdict_of(thawribbon_routed routed)
{
    if (routed.number != THAWRIBBON_SERVED) {
        return THAWRIBBON_NOT_ROUTED;
    }
    return routed.leaves == 1 ? THAWRIBBON_LEAVES : THAWRIBBON_NO_PORT;
}

/* Whether what thawribbon_ports_route writes overlaps the ports or the packet. A list whose bytes are too many to be counted here is
 * answered 1 in any case. */
static inline int thawribbon_leaving_overlaps(const thawribbon_port *ports, size_t ports_length,
                                              const uint8_t *packet, size_t packet_length, const thawribbon_leaving *leaving)
{
    return (ports_length != 0 && thawribbon_overlap(ports, ports_length * sizeof *ports, leaving, sizeof *leaving)) ||
           (packet_length != 0 && thawribbon_overlap(packet, packet_length, leaving, sizeof *leaving));
}

/*
 * Routes a packet that a switch with these ports receives from its host: thawribbon_route, with a buffer of its own for what leaves.
 *
 * Gives the verdict, and sets every member of `leaving`. Only THAWRIBBON_LEAVES means that the packet goes on: the first `length` of its
 * `bytes` are what to send by ports[port]. THAWRIBBON_NO_PORT is an Unsupported Request, and no completion is written for it. The list
 * and the packet may be of any length; ports_length counts ports, not bytes. `leaving` is not NULL.
 *
 * Where `leaving` overlaps the ports or the packet, the number is 1, and nothing is written but `leaving`.
 */
THAWRIBBON_MUST_USE static inline thawribbon_verdict thawribbon_ports_route(const thawribbon_port *ports, size_t ports_length,
                                                                            const uint8_t *packet, size_t packet_length,
                                                                            thawribbon_leaving *leaving)
{
    const thawribbon_leaving none = {THAWRIBBON_NOT_ROUTED, THAWRIBBON_BAD_DESCRIPTION, 0, 0,
                                     {0xFF, 0xFF, 0xFF, 0xFF, 0xFF, 0xFF, 0xFF, 0xFF, 0xFF, 0xFF,
                                      0xFF, 0xFF, 0xFF, 0xFF, 0xFF, 0xFF, 0xFF, 0xFF, 0xFF, 0xFF}};
    const int overlaps = thawribbon_leaving_overlaps(ports, ports_length, packet, packet_length, leaving);
    thawribbon_routed routed;
    *leaving = none; /* from here on ports or packet may be overwritten, where they overlap */
    if (overlaps) {
        return leaving->verdict;
    }
    routed = thawribbon_route(ports, ports_length, packet, packet_length, leaving->bytes, sizeof leaving->bytes);
    leaving->number = routed.number;
    leaving->port = routed.port;
    leaving->length = routed.length;
    leaving->verdict = thawribbon_verdict_of(routed);
    return leaving->verdict;
}

/* What became of a packet at a switch, in words. */
THAWRIBBON_MUST_USE static inline const char *thawribbon_leaving_text(const thawribbon_leaving *leaving)
{
    if (leaving->verdict == THAWRIBBON_NOT_ROUTED) {
        return thawribbon_text(leaving->number);
    }
    return leaving->verdict == THAWRIBBON_LEAVES ? "the packet leaves" : "Unsupported Request: no port has the packet's bus";
}

/*
 * The parts of a read of all four bytes of the word at an offset: THAWRIBBON_TYPE0_READ, THAWRIBBON_TYPE1_READ or THAWRIBBON_TRUSTED_READ.
 *
 * Requester and tag are 0, for the caller to set, and so is the data: with the kind of a write the parts are those of a write of four 0
 * bytes. Nothing is tested here; thawribbon_write_request tests the parts.
 */
THAWRIBBON_MUST_USE static inline thawribbon_parts thawribbon_read_parts(uint8_t kind, uint8_t bus, uint8_t device, uint8_t function,
                                                                         uint32_t offset)
{
    const thawribbon_parts parts = {offset, kind, {0, 0}, 0, bus, device, function, 0x0F, {0, 0, 0, 0}};
    return parts;
}

/*
 * The parts of a write of all four bytes of the word at an offset: THAWRIBBON_TYPE0_WRITE, THAWRIBBON_TYPE1_WRITE or
 * THAWRIBBON_TRUSTED_WRITE. The four bytes of the data, which is not NULL, are copied; with the kind of a read they are ignored. Requester
 * and tag are 0, for the caller to set.
 */
THAWRIBBON_MUST_USE static inline thawribbon_parts thawribbon_write_parts(uint8_t kind, uint8_t bus, uint8_t device, uint8_t function,
                                                                          uint32_t offset, const uint8_t data[4])
{
    const thawribbon_parts parts = {offset, kind, {0, 0}, 0, bus, device, function, 0x0F, {data[0], data[1], data[2], data[3]}};
    return parts;
}

/* What is heard of a request. */
typedef enum thawribbon_asked {
    /* the access was done. A read's four bytes are what is heard; a write changed what the enables, the rules and the marks let it change,
       which may be nothing */
    THAWRIBBON_ASKED_DONE = 0,
    /* Unsupported Request: the access was not done, and nothing has changed */
    THAWRIBBON_ASKED_UNSUPPORTED = 1,
    /* the completion is another request's: it has another requester or tag, or data for a write, or none for a read that was done */
    THAWRIBBON_ASKED_OTHER = 2,
    /* the parts are no request, or the board is badly described, or the bytes are no completion; the number says why */
    THAWRIBBON_ASKED_REFUSED = 3
} thawribbon_asked;

/* Whether a completion is the answer to a request with these parts: it has its requester and its tag, and it is Unsupported Request, or it
 * has data exactly where the request reads. Bit 6 of a kind tells a write. */
static inline int thawribbon_answers(thawribbon_parts parts, const thawribbon_heard *heard)
{
    const uint8_t done = (parts.kind & 0x40) != 0 ? THAWRIBBON_SAID_DONE : THAWRIBBON_SAID_DATA;
    return heard->requester[0] == parts.requester[0] && heard->requester[1] == parts.requester[1] && heard->tag == parts.tag &&
           (heard->said == done || heard->said == THAWRIBBON_SAID_UNSUPPORTED);
}

/*
 * Hears what a completion says to the request with these parts: thawribbon_read_completion, and whether it is this request's.
 *
 * Sets every member of `heard` to what thawribbon_read_completion gives. Only THAWRIBBON_ASKED_DONE means that the access was done: after a
 * read, heard->data is what it gave. The parts are those that thawribbon_write_request took; the completion may be any bytes of any length;
 * `heard` is not NULL, and may overlap the completion, which is read before.
 */
THAWRIBBON_MUST_USE static inline thawribbon_asked thawribbon_hear(thawribbon_parts parts,
                                                                   const uint8_t *completion, size_t completion_length,
                                                                   thawribbon_heard *heard)
{
    *heard = thawribbon_read_completion(completion, completion_length);
    if (heard->number != THAWRIBBON_SERVED) {
        return THAWRIBBON_ASKED_REFUSED;
    }
    if (!thawribbon_answers(parts, heard)) {
        return THAWRIBBON_ASKED_OTHER;
    }
    return heard->said == THAWRIBBON_SAID_UNSUPPORTED ? THAWRIBBON_ASKED_UNSUPPORTED : THAWRIBBON_ASKED_DONE;
}

/* Nothing is heard, for the reason that this number says. */
static inline thawribbon_asked thawribbon_hear_nothing(uint8_t number, thawribbon_heard *heard)
{
    const thawribbon_heard nothing = {number, THAWRIBBON_SAID_NOTHING, {0, 0}, {0, 0}, 0, {0, 0, 0, 0}};
    *heard = nothing;
    return THAWRIBBON_ASKED_REFUSED;
}

/* Whether what is heard overlaps the board, or a space, rules or marks of it. */
static inline int thawribbon_heard_overlaps(const thawribbon_board *board, const thawribbon_heard *heard)
{
    return thawribbon_overlap(board, sizeof *board, heard, sizeof *heard) |
           thawribbon_overlap_spaces(heard, sizeof *heard, board->ordinary, board->trusted);
}

/*
 * Asks a board: writes the request, has the board answer it, and reads the completion back. That is thawribbon_write_request,
 * thawribbon_board_serve and thawribbon_hear, in this order.
 *
 * Sets every member of `heard`. Only THAWRIBBON_ASKED_DONE means that the access was done: after a read, heard->data is what it gave. With
 * THAWRIBBON_ASKED_REFUSED, heard->number says why, and nothing has changed in the board. The board and `heard` are not NULL.
 *
 * Where `heard` overlaps the board, a space, its rules or its marks, or the board's buffers overlap each other, the number is 1, and nothing
 * is written but `heard`.
 */
THAWRIBBON_MUST_USE static inline thawribbon_asked thawribbon_board_ask(thawribbon_board *board, thawribbon_parts parts,
                                                                        thawribbon_heard *heard)
{
    uint8_t request[THAWRIBBON_REQUEST];
    thawribbon_answer answer;
    const thawribbon_written written = thawribbon_write_request(parts, request, sizeof request);
    if (written.number != THAWRIBBON_SERVED) {
        return thawribbon_hear_nothing(written.number, heard);
    }
    if (thawribbon_heard_overlaps(board, heard)) {
        return thawribbon_hear_nothing(THAWRIBBON_BAD_DESCRIPTION, heard);
    }
    if (thawribbon_board_serve(board, request, written.length, &answer) == THAWRIBBON_REFUSED) {
        return thawribbon_hear_nothing(answer.number, heard);
    }
    return thawribbon_hear(parts, answer.completion, answer.length, heard);
}

/*
 * Asks a board of two functions, as thawribbon_board_ask asks one of one: thawribbon_write_request, thawribbon_pair_serve and
 * thawribbon_hear, in this order. The parts name the function that is asked.
 *
 * Where `heard` overlaps the pair, a space, rules or marks of either function, or the pair's buffers overlap each other, the number is 1,
 * and nothing is written but `heard`.
 */
THAWRIBBON_MUST_USE static inline thawribbon_asked thawribbon_pair_ask(thawribbon_pair *pair, thawribbon_parts parts,
                                                                       thawribbon_heard *heard)
{
    uint8_t request[THAWRIBBON_REQUEST];
    thawribbon_answer answer;
    const thawribbon_written written = thawribbon_write_request(parts, request, sizeof request);
    if (written.number != THAWRIBBON_SERVED) {
        return thawribbon_hear_nothing(written.number, heard);
    }
    if (thawribbon_overlap(pair, sizeof *pair, heard, sizeof *heard) | thawribbon_overlap_pair(heard, sizeof *heard, pair)) {
        return thawribbon_hear_nothing(THAWRIBBON_BAD_DESCRIPTION, heard);
    }
    if (thawribbon_pair_serve(pair, request, written.length, &answer) == THAWRIBBON_REFUSED) {
        return thawribbon_hear_nothing(answer.number, heard);
    }
    return thawribbon_hear(parts, answer.completion, answer.length, heard);
}

/* What is heard of a request, in words. */
THAWRIBBON_MUST_USE static inline const char *thawribbon_asked_text(thawribbon_asked asked, const thawribbon_heard *heard)
{
    switch (asked) {
    case THAWRIBBON_ASKED_DONE:
        return "the access was done";
    case THAWRIBBON_ASKED_UNSUPPORTED:
        return "Unsupported Request: the access was not done";
    case THAWRIBBON_ASKED_OTHER:
        return "the completion is another request's";
    default:
        return thawribbon_text(heard->number);
    }
}

/* Where a port's Multicast capability is: the port's space, and the offset in it. A space that is NULL counts as one without bytes: 1. */
typedef struct thawribbon_capability {
    const thawribbon_bytes *space;
    size_t at;
} thawribbon_capability;

/*
 * The multicast of a switch: the fields of each port's capability, in the order of the list. thawribbon_offload_read sets all of it.
 *
 * Where one port could not be read there are no ports: so no address is judged by fields that are 0 because nobody read them.
 */
typedef struct thawribbon_offload {
    size_t length;                             /* how many ports there are: 0 where refused */
    size_t refused;                            /* where refused, the place of the first port at fault; else 0 */
    uint8_t number;                            /* why it is refused: 1, 8, 9 or 13; 0 where it is not */
    thawribbon_groups ports[THAWRIBBON_PORTS]; /* the fields of each port; past the length, and all of them where refused, 0 */
} thawribbon_offload;

/* An offload without ports, for the reason that this number says of the port at this place. */
static inline uint8_t thawribbon_offload_none(thawribbon_offload *offload, uint8_t number, size_t refused)
{
    const thawribbon_groups nothing = {0, 0, 0, 0, 0, 0, 0};
    size_t place;
    offload->length = 0;
    offload->refused = refused;
    offload->number = number;
    for (place = 0; place < THAWRIBBON_PORTS; place++) {
        offload->ports[place] = nothing;
    }
    return number;
}

/*
 * Reads the Multicast capabilities of a switch's ports, by thawribbon_multicast, one after the other.
 *
 * Gives the number, and sets every member of `offload`. 0 means that all were read. Any other is the number of the first that was refused,
 * and offload->refused is its place: then there are no ports, and thawribbon_offload_judge judges nothing. Over 32 ports are refused with 1
 * at place 32. A list of none is read, and no packet enters by any of its ports. `offload` is not NULL, and overlaps neither a space nor
 * the list; these are only read.
 */
THAWRIBBON_MUST_USE static inline uint8_t thawribbon_offload_read(const thawribbon_capability *capabilities, size_t capabilities_length,
                                                                  thawribbon_offload *offload)
{
    size_t place;
    (void)thawribbon_offload_none(offload, THAWRIBBON_SERVED, 0);
    if (capabilities_length > THAWRIBBON_PORTS) {
        return thawribbon_offload_none(offload, THAWRIBBON_BAD_DESCRIPTION, THAWRIBBON_PORTS);
    }
    for (place = 0; place < capabilities_length; place++) {
        const thawribbon_bytes *space = capabilities[place].space;
        const uint8_t number = thawribbon_multicast(thawribbon_bytes_read(space), thawribbon_bytes_length(space), capabilities[place].at,
                                                    &offload->ports[place]);
        if (number != THAWRIBBON_SERVED) {
            return thawribbon_offload_none(offload, number, place);
        }
    }
    offload->length = capabilities_length;
    return THAWRIBBON_SERVED;
}

/* What becomes of a packet, by what thawribbon_judge gave. Only number 0 says that it is judged. */
THAWRIBBON_MUST_USE static inline thawribbon_judgement thawribbon_judgement_of(thawribbon_judged judged)
{
    if (judged.number != THAWRIBBON_SERVED) {
        return THAWRIBBON_JUDGED_NOTHING;
    }
    switch (judged.verdict) {
    case THAWRIBBON_JUDGED_NO_HIT:
        return THAWRIBBON_JUDGED_NO_HIT;
    case THAWRIBBON_JUDGED_DROPPED:
        return THAWRIBBON_JUDGED_DROPPED;
    case THAWRIBBON_JUDGED_LEAVES:
        return THAWRIBBON_JUDGED_LEAVES;
    default:
        return THAWRIBBON_JUDGED_NOTHING;
    }
}

/*
 * Judges an address by the ports of an offload: thawribbon_judge, where all of them were read.
 *
 * Gives what becomes of a packet for the address that enters by the port at this place, and sets every member of `judged`. Where the offload
 * is refused, that is THAWRIBBON_JUDGED_NOTHING with the offload's number, whatever the address: it is never no hit. The place and the
 * address may be any number. The offload and `judged` are not NULL, and do not overlap; the offload is only read.
 */
THAWRIBBON_MUST_USE static inline thawribbon_judgement thawribbon_offload_judge(const thawribbon_offload *offload, size_t entering,
                                                                                uint64_t address, thawribbon_judged *judged)
{
    const thawribbon_judged nothing = {0, offload->number, THAWRIBBON_JUDGED_NOTHING, 0};
    if (offload->number != THAWRIBBON_SERVED) {
        *judged = nothing;
    } else {
        *judged = thawribbon_judge(offload->ports, offload->length, entering, address);
    }
    return thawribbon_judgement_of(*judged);
}

/* Whether a packet leaves by the port at this place, which may be any number: 1 or 0. It is 0 with every verdict but
 * THAWRIBBON_JUDGED_LEAVES. */
THAWRIBBON_MUST_USE static inline int thawribbon_leaves_by(thawribbon_judged judged, size_t place)
{
    return thawribbon_judgement_of(judged) == THAWRIBBON_JUDGED_LEAVES && place < THAWRIBBON_PORTS && (judged.ports >> place & 1) != 0;
}

/* What becomes of a packet for an address, in words. A packet that leaves by no port has words of its own. */
THAWRIBBON_MUST_USE static inline const char *thawribbon_judged_text(thawribbon_judged judged)
{
    switch (thawribbon_judgement_of(judged)) {
    case THAWRIBBON_JUDGED_NO_HIT:
        return "no hit: the address is in no group of the port that the packet enters by, or that port is not enabled";
    case THAWRIBBON_JUDGED_DROPPED:
        return "the packet is dropped where it enters";
    case THAWRIBBON_JUDGED_LEAVES:
        return judged.ports != 0 ? "the packet leaves" : "the packet leaves by no port: no other one receives its group";
    case THAWRIBBON_JUDGED_NOTHING:
    default:
        return thawribbon_text(judged.number);
    }
}

/* A structure of any three numbers. None is cut: one that does not fit its member becomes one that is refused with 1. */
THAWRIBBON_MUST_USE static inline thawribbon_structure thawribbon_structure_of(uint64_t id, uint64_t version, uint64_t length)
{
    thawribbon_structure structure;
    structure.id = (uint16_t)(id <= UINT16_MAX ? id : 0);
    structure.version = (uint16_t)(version <= UINT16_MAX ? version : UINT16_MAX);
    structure.length = (uint16_t)(length <= UINT16_MAX ? length : UINT16_MAX);
    return structure;
}

/*
 * A layout: the offset of each structure, in the order of the structures. thawribbon_layout_lay sets all of it.
 *
 * Where it is refused there are no offsets: so nothing is looked for at an offset that nobody planned.
 */
typedef struct thawribbon_layout {
    size_t length;                                 /* how many offsets there are: one a structure, or 0 where refused */
    uint8_t number;                                /* why it is refused: 1 or 14; 0 where it is not */
    uint16_t offsets[THAWRIBBON_EXTENDED_MAXIMUM]; /* past the length, and all of them where refused, 0 */
} thawribbon_layout;

/* A layout without offsets, for the reason that this number says. */
static inline uint8_t thawribbon_layout_none(thawribbon_layout *layout, uint8_t number)
{
    size_t place;
    layout->length = 0;
    layout->number = number;
    for (place = 0; place < THAWRIBBON_EXTENDED_MAXIMUM; place++) {
        layout->offsets[place] = 0;
    }
    return number;
}

/* Whether what thawribbon_layout_lay writes, the space and the layout, overlaps anything that it is lent. Structures whose bytes are too
 * many to be counted here are answered 1 in any case. */
static inline int thawribbon_layout_overlaps(const thawribbon_structure *structures, size_t structures_length,
                                             const thawribbon_bytes *space, const thawribbon_layout *layout)
{
    const size_t bytes = structures_length * sizeof *structures;
    return thawribbon_overlap(space, sizeof *space, layout, sizeof *layout) ||
           (bytes != 0 && (thawribbon_overlap(structures, bytes, space, sizeof *space) |
                           thawribbon_overlap(structures, bytes, layout, sizeof *layout)));
}

/*
 * Lays out the extended list of a new board: plans where the structures stand, has it checked, and writes their headers into the space.
 * That is thawribbon_plan_layout and thawribbon_write_layout, in this order.
 *
 * Gives the number, and sets every member of `layout`. 0 means that the headers are written: no other byte of the space has changed, and
 * layout->offsets says where each structure stands. With 1, also where the space is NULL, and with 14 the space is unchanged, and there are
 * no offsets. 18 is not given: what is planned is accepted. structures_length counts structures, not bytes. `layout` is not NULL.
 *
 * Where space, layout and structures overlap, the number is 1, and nothing is written but `layout`, even where it lies in the space.
 */
THAWRIBBON_MUST_USE static inline uint8_t thawribbon_layout_lay(const thawribbon_structure *structures, size_t structures_length,
                                                                thawribbon_bytes *space, thawribbon_layout *layout)
{
    uint8_t number;
    if (space == NULL || thawribbon_layout_overlaps(structures, structures_length, space, layout)) {
        return thawribbon_layout_none(layout, THAWRIBBON_BAD_DESCRIPTION);
    }
    (void)thawribbon_layout_none(layout, THAWRIBBON_SERVED);
    number = thawribbon_plan_layout(structures, structures_length, layout->offsets, THAWRIBBON_EXTENDED_MAXIMUM);
    if (number == THAWRIBBON_SERVED) {
        number = thawribbon_write_layout(structures, structures_length, layout->offsets, structures_length, space->at, sizeof space->at);
    }
    if (number != THAWRIBBON_SERVED) {
        return thawribbon_layout_none(layout, number);
    }
    layout->length = structures_length;
    return number;
}

/* A header of a list: where it is, and what it says it is. */
typedef struct thawribbon_header {
    uint16_t offset;
    uint16_t id;     /* a byte in the compatible list, bits 15:0 in the others; 0 where a supplier blanked the capability */
    uint8_t version; /* bits 19:16; 0 in the compatible list, whose headers have none */
} thawribbon_header;

/*
 * The header of the extended list at an offset that thawribbon_walk_extended listed.
 *
 * Takes the space and the offset, which may be any number. Where the space isn't 4,096 bytes, or the offset is over FFCh, every member is
 * 0, the offset too, which no list has. The space is only read. The next two do the same for the other two lists.
 */
THAWRIBBON_MUST_USE static inline thawribbon_header thawribbon_header_extended(const uint8_t *space, size_t space_length, size_t at)
{
    thawribbon_header header = {0, 0, 0};
    if (space_length == THAWRIBBON_SPACE && at <= THAWRIBBON_SPACE - 4) {
        header.offset = (uint16_t)at;
        header.id = (uint16_t)(space[at] | space[at + 1] << 8);
        header.version = (uint8_t)(space[at + 2] & 0x0F);
    }
    return header;
}

/* The header of the trusted list at an offset that thawribbon_walk_trusted listed. */
THAWRIBBON_MUST_USE static inline thawribbon_header thawribbon_header_trusted(const uint8_t *space, size_t space_length, size_t at)
{
    return thawribbon_header_extended(space, space_length, at);
}

/* The header of the compatible list at an offset that thawribbon_walk_compatible listed. */
THAWRIBBON_MUST_USE static inline thawribbon_header thawribbon_header_compatible(const uint8_t *space, size_t space_length, size_t at)
{
    thawribbon_header header = thawribbon_header_extended(space, space_length, at);
    header.id = (uint16_t)(header.id & 0xFF);
    header.version = 0;
    return header;
}

#ifdef __cplusplus
}
#endif

#endif
