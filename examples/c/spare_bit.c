/* An F-SEID with a spare bit set and bytes behind it. From the repository's top, once `rt lib --cpu x86-64` has run in
 * crates/yerondatt:
 *     cc -Iinclude examples/c/spare_bit.c crates/yerondatt/out/libyerondatt.a -o crates/yerondatt/out/spare_bit
 *     crates/yerondatt/out/spare_bit */
#include "yerondatt.h"
#include <stdio.h>

int main(void)
{
    /* 06: V4 and a spare bit. Then the SEID 5, the address 192.0.2.1, and two bytes that aren't the F-SEID's. */
    const uint8_t payload[] = {0x06, 0, 0, 0, 0, 0, 0, 0, 5, 192, 0, 2, 1, 0xFF, 0xFF};
    uint8_t image[YERONDATT_FSEID_SIZE];
    if (yerondatt_fseid_read(payload, sizeof payload, image, sizeof image) != YERONDATT_DONE)
        return 1;
    struct yerondatt_fseid fseid = yerondatt_fseid_from_image(image);
    const uint8_t *ip = fseid.ipv4_address;
    printf("SEID %llu, ", (unsigned long long)fseid.seid);
    printf("address %d.%d.%d.%d, ", ip[0], ip[1], ip[2], ip[3]);
    printf("%zu of %zu bytes used\n", yerondatt_head_from_image(image).count, sizeof payload);
    return 0;
}
