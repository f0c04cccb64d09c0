/* The two records through thawribbon_dvsec, thawribbon_dvsec_body and thawribbon_dual_bdf: P9 to P11, every offset, and the ends. */
#include "first_day.h"

#include "buffers.h"
#include "groups.h"
#include "thawribbon.h"

static buffer space;

static const uint8_t dual_record[12] = {0x09, 0x00, 0x0C, 0x00, 0xC0, 0x1E, 0xC0, 0x00, 0x02, 0x00, 0x02, 0x03};
static const uint8_t dvsec_record[10] = {0x23, 0x00, 0x01, 0x00, 0xC0, 0x1E, 0x00, 0x01, 0x02, 0x00};

/* A space with P9's and P11's record. */
static void both_records(void)
{
    fill(&space, 0x00, THAWRIBBON_SPACE);
    put(&space, 0x040, dual_record, 12);
    put(&space, 0x100, dvsec_record, 10);
}

static void dual_bdf_is(size_t offset, uint8_t number, uint8_t function, uint8_t device)
{
    thawribbon_alternate alternate;
    remember(&space);
    alternate = thawribbon_dual_bdf(lent(&space), space.length, offset);
    expect(alternate.number == number, "another number", offset);
    expect(alternate.function == function && alternate.device == device, "another function or device", offset);
    expect(is_as_expected(&space), "the space has changed", offset);
}

/* Both questions about a DVSEC: P11's answers, or the number and nothing else. */
static void dvsec_is(size_t offset, uint8_t number)
{
    thawribbon_dvsec_header header;
    thawribbon_part body;
    int found = number == THAWRIBBON_SERVED;
    remember(&space);
    header = thawribbon_dvsec(lent(&space), space.length, offset);
    expect(is_as_expected(&space), "the space has changed", offset);
    expect(header.number == number, "another number", offset);
    expect(header.vendor == (found ? 0x1EC0 : 0) && header.revision == 0, "another vendor or revision", offset);
    expect(header.id == (found ? 0x0002 : 0) && header.length == (found ? 0x10 : 0), "another ID or length", offset);
    body = thawribbon_dvsec_body(lent(&space), space.length, offset);
    expect(body.start == (found ? offset + 0x0A : 0) && body.length == (found ? 6U : 0U), "another body", offset);
    expect(is_as_expected(&space), "the space has changed", offset);
}

static void p9(void)
{
    both_records();
    dual_bdf_is(0x040, THAWRIBBON_SERVED, 1, 3);
}

static void p10(void)
{
    const uint8_t vector = 0x03;
    both_records();
    put(&space, 0x04A, &vector, 1);
    dual_bdf_is(0x040, THAWRIBBON_NOT_ONE_FUNCTION, 0, 0);
}

static void p11(void)
{
    both_records();
    dvsec_is(0x100, THAWRIBBON_SERVED);
}

static void record_lengths(void)
{
    size_t n;
    for (n = 0; n < LENGTHS; n++) {
        size_t length = tried_length(n);
        int whole = length == THAWRIBBON_SPACE;
        both_records();
        resize(&space, length);
        dual_bdf_is(0x040, whole ? THAWRIBBON_SERVED : THAWRIBBON_BAD_DESCRIPTION, whole ? 1 : 0, whole ? 3 : 0);
        dvsec_is(0x100, whole ? THAWRIBBON_SERVED : THAWRIBBON_BAD_DESCRIPTION);
    }
}

static void record_nothing(void)
{
    size_t n;
    for (n = 0; n < POINTERS; n++) {
        both_records();
        lend_instead(&space, pointer_to_nothing(n));
        dual_bdf_is(0x040, THAWRIBBON_BAD_DESCRIPTION, 0, 0);
        dvsec_is(0x100, THAWRIBBON_BAD_DESCRIPTION);
    }
}

/* Every offset up to past the space's end, those near the largest numbers, and those that have a record's offset in their lower bits. */
static void record_offsets(void)
{
    size_t at, bit;
    both_records();
    for (at = 0; at < 0x1010; at++) {
        int dual = at % 4 == 0 && at >= 0x040 && at <= 0x0FC, dvsec = at % 4 == 0 && at >= 0x100 && at <= 0xFFC;
        if (at != 0x040) {
            dual_bdf_is(at, dual ? THAWRIBBON_OTHER_STRUCTURE : THAWRIBBON_BAD_DESCRIPTION, 0, 0);
        }
        if (at != 0x100) {
            dvsec_is(at, dvsec ? THAWRIBBON_OTHER_STRUCTURE : THAWRIBBON_BAD_DESCRIPTION);
        }
    }
    for (at = 0; at < 32; at++) {
        dual_bdf_is(SIZE_MAX - at, THAWRIBBON_BAD_DESCRIPTION, 0, 0);
        dvsec_is(SIZE_MAX - at, THAWRIBBON_BAD_DESCRIPTION);
        dual_bdf_is(UINT32_MAX - 16 + at, THAWRIBBON_BAD_DESCRIPTION, 0, 0);
        dvsec_is(UINT32_MAX - 16 + at, THAWRIBBON_BAD_DESCRIPTION);
    }
    for (bit = 12; bit < 64; bit++) {
        dual_bdf_is(((size_t)1 << bit) + 0x040, THAWRIBBON_BAD_DESCRIPTION, 0, 0);
        dvsec_is(((size_t)1 << bit) + 0x100, THAWRIBBON_BAD_DESCRIPTION);
    }
}

/* Records that run out of their space: a DVSEC that ends past 1000h, a Dual-BDF that ends past 100h. */
static void record_ends(void)
{
    static const uint16_t dvsec_at[5] = {0xFEC, 0xFF0, 0xFF4, 0xFF8, 0xFFC};
    static const uint16_t dual_at[5] = {0x0F0, 0x0F4, 0x0F8, 0x0FC, 0x100};
    static const uint8_t dual_number[5] = {0, 0, THAWRIBBON_WRONG_EXTENT, THAWRIBBON_WRONG_EXTENT, THAWRIBBON_BAD_DESCRIPTION};
    size_t n;
    for (n = 0; n < 5; n++) {
        size_t left = (size_t)(THAWRIBBON_SPACE - dvsec_at[n]);
        fill(&space, 0x00, THAWRIBBON_SPACE);
        put(&space, dvsec_at[n], dvsec_record, left < 10 ? left : 10);
        dvsec_is(dvsec_at[n], left >= 0x10 ? THAWRIBBON_SERVED : THAWRIBBON_WRONG_EXTENT);
        fill(&space, 0x00, THAWRIBBON_SPACE);
        put(&space, dual_at[n], dual_record, 12);
        dual_bdf_is(dual_at[n], dual_number[n], dual_number[n] == 0 ? 1 : 0, dual_number[n] == 0 ? 3 : 0);
    }
}

void records(void)
{
    group("P9", p9);
    group("P10", p10);
    group("P11", p11);
    group("records, spaces of every length", record_lengths);
    group("records, NULL and other pointers with length 0", record_nothing);
    group("records, every offset", record_offsets);
    group("records, the ends of their spaces", record_ends);
}
