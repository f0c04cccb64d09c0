/* Runs the example at the top of thawribbon.h, which tests/library.sh puts before this: it lands, does not land, and is not done. */
#include <stdio.h>

int main(void)
{
    static const uint8_t type0_write[16] = {THAWRIBBON_TYPE0_WRITE, 0, 0, 1, 1, 0, 6, 0x00, 0x05, 0x18, 0, 0x10};
    static const uint8_t trusted_write[16] = {THAWRIBBON_TRUSTED_WRITE, 0, 0, 1, 1, 0, 7, 0x0F, 0x05, 0x18, 0, 0x10, 0x11, 0x22, 0x33, 0x44};
    static const uint8_t trusted_read[12] = {THAWRIBBON_TRUSTED_READ, 0, 0, 1, 1, 0, 8, 0x0F, 0x05, 0x18, 0, 0x10};
    static const uint8_t other_function[16] = {THAWRIBBON_TYPE0_WRITE, 0, 0, 1, 1, 0, 6, 0x00, 0x05, 0x19, 0, 0x10};
    static thawribbon_bytes ordinary, trusted, rules = {{[0x010] = 0xFF, 0xFF, 0xFF, 0xFF}}, kept;
    thawribbon_board lands = {{0, 0x104, 0x00C, THAWRIBBON_EDITION_1}, THAWRIBBON_FRESH, {&ordinary, &rules, &thawribbon_no_marks},
                              {&trusted, &rules, &thawribbon_no_marks}};
    thawribbon_board keeps = {{0, 0x104, 0x00C, THAWRIBBON_EDITION_1}, THAWRIBBON_FRESH, {&ordinary, &kept, &thawribbon_no_marks},
                              {&trusted, &kept, &thawribbon_no_marks}};

    printf("%d", renew(&lands, other_function, trusted_write, trusted_read));
    printf("%d", renew(&lands, type0_write, trusted_write, trusted_read));
    trusted.at[0x010] = 0;
    printf("%d\n", renew(&keeps, type0_write, trusted_write, trusted_read));
    return 0;
}
