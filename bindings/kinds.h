/*
 * The writers of all kinds with one list of parameters, so that a table can hold them: those of the kinds without texts are
 * lent texts too, and don't use them.
 */
#ifndef KINDS_H
#define KINDS_H

#include "yerondatt.h"

typedef uint64_t write_function(const uint8_t *image, size_t image_len, const uint8_t *from, size_t from_len, uint8_t *out,
                                size_t out_len, uint8_t *report, size_t report_len);

#define WITHOUT_TEXTS(KIND) \
    static inline uint64_t write_##KIND(const uint8_t *image, size_t image_len, const uint8_t *from, size_t from_len, \
                                        uint8_t *out, size_t out_len, uint8_t *report, size_t report_len) \
    { \
        (void)from; \
        (void)from_len; \
        return yerondatt_##KIND##_write(image, image_len, out, out_len, report, report_len); \
    }

WITHOUT_TEXTS(ue_ip_address)
WITHOUT_TEXTS(f_teid)
WITHOUT_TEXTS(fseid)
WITHOUT_TEXTS(outer_header_creation)

#endif
