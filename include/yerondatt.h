/*
 * Yerondatt from C and C++: six PFCP payloads, read and written by proved functions.
 *
 *     uint8_t image[YERONDATT_FSEID_SIZE];
 *     if (yerondatt_fseid_read(payload, payload_len, image, sizeof image) == YERONDATT_DONE) {
 *         struct yerondatt_fseid record = yerondatt_fseid_from_image(image);
 *         ...
 *
 * The archive libyerondatt.a has the exported functions, for x86-64 Linux. What crosses to them is numbers and bytes: a
 * payload, a record image, an output. The structs below and the functions that fill them stand in this header alone.
 *
 * What holds for every exported function
 * - It takes any bytes of any length. Each pointer has its length behind it, in bytes, and is good for so many; where that is
 *   0 it isn't followed.
 * - It changes the lent memory that its description names, and no other. It keeps nothing between calls and uses no heap, so
 *   that any threads may call it at the same time.
 * - What it changes (the image of a read; the output and the report of a write) overlaps nothing else that is lent to it.
 *
 * C99 or C++11.
 */
#ifndef YERONDATT_H
#define YERONDATT_H

#include <stddef.h>
#include <stdint.h>
#include <string.h>
#ifndef __cplusplus
#include <stdbool.h>
#endif

#ifdef __cplusplus
extern "C" {
#endif

/* ---- Answers ---------------------------------------------------------------------------------------------------- */

/*
 * The number of an answer: what an exported read or write returns, and the first number of a head. In brackets are the
 * values that come with it, values[0], values[1] and values[2] of the head; those that aren't named are 0.
 */
enum yerondatt_answer {
    /* done */
    YERONDATT_DONE = 0,
    /* the payload ends before a needed field [field number; bytes needed up to the field's end; bytes that are there] */
    YERONDATT_SHORT = 1,
    /* forbidden flags [the whole flag byte; the rule that it breaks, see enum yerondatt_flag_rule] */
    YERONDATT_FLAGS = 2,
    /* the type byte of a Node ID is above 2 [that byte] */
    YERONDATT_NODE_TYPE = 3,
    /*
     * A text of the payload isn't UTF-8 [place in the payload of the first byte behind the well-formed beginning; 0 where the
     * text was cut, that is, ends inside a character that more bytes could complete, else 1 to 3, the length of the bad
     * sequence at that place]. A text of PFD Contents ends where its own length says, whatever bytes are behind it.
     */
    YERONDATT_NOT_UTF8 = 4,
    /* the payload, or the texts lent to a write, have more than 65,535 bytes [how many they have] */
    YERONDATT_INPUT_TOO_LONG = 5,
    /* a text or list of the record ends past the lent texts, isn't UTF-8, or its count and length disagree [field number] */
    YERONDATT_BAD_TEXT = 6,
    /* the written form would have more than 65,535 bytes */
    YERONDATT_OUTPUT_TOO_LONG = 7,
    /*
     * The output is shorter than the written form [bytes needed]. Also where an image or a report is shorter than its size:
     * then nothing at all is changed, the report neither.
     */
    YERONDATT_NO_ROOM = 8,
    /*
     * A builder refuses [rule: 1 IPv4 both given and chosen, 2 IPv6 likewise, 3 no address and no choice, 4 a choose ID without
     * a choice, 5 no TEID and no choice, 6 PFD Contents without field and list entry]. Builders aren't exported, so that no
     * function of this header answers 9.
     */
    YERONDATT_UNBUILT = 9
};

/* The field number of the answers 1 and 6. */
enum yerondatt_field {
    YERONDATT_FIELD_WHOLE = 0, /* what every payload of the kind begins with */
    YERONDATT_FIELD_IPV4 = 1,
    YERONDATT_FIELD_IPV6 = 2,
    YERONDATT_FIELD_DELEGATION_BITS = 3,
    YERONDATT_FIELD_PREFIX_LENGTH = 4,
    YERONDATT_FIELD_CHOOSE_ID = 5,
    YERONDATT_FIELD_TEID = 6,
    YERONDATT_FIELD_PORT = 7,
    YERONDATT_FIELD_CTAG = 8,
    YERONDATT_FIELD_STAG = 9,
    YERONDATT_FIELD_TEXT = 10, /* the name of a Node ID; on reading also any field of PFD Contents */
    /* on writing, the fields of PFD Contents in the order of the wire */
    YERONDATT_FIELD_FLOW_DESCRIPTION = 11,
    YERONDATT_FIELD_URL = 12,
    YERONDATT_FIELD_DOMAIN_NAME = 13,
    YERONDATT_FIELD_CUSTOM_PFD_CONTENT = 14,
    YERONDATT_FIELD_DOMAIN_NAME_PROTOCOL = 15,
    YERONDATT_FIELD_ADDITIONAL_FLOW_DESCRIPTION = 16,
    YERONDATT_FIELD_ADDITIONAL_URL = 17,
    YERONDATT_FIELD_ADDITIONAL_DOMAIN_NAME_AND_PROTOCOL = 18
};

/* The rule of the answer 2. The lowest one that is broken is told. */
enum yerondatt_flag_rule {
    YERONDATT_RULE_GIVEN_AND_CHOSEN = 1,    /* UE IP Address: V4 with CHV4, or V6 with CHV6 */
    YERONDATT_RULE_TWO_PREFIX_FORMS = 2,    /* UE IP Address: IPv6D with IP6PL */
    YERONDATT_RULE_PREFIX_WITHOUT_IPV6 = 3, /* UE IP Address: IPv6D or IP6PL without V6 and without CHV6 */
    YERONDATT_RULE_CHID_WITHOUT_CH = 4      /* F-TEID: CHID without CH */
};

/* ---- Images ----------------------------------------------------------------------------------------------------- */

/*
 * The version of the layout that this header describes. yerondatt_layout_version() tells the archive's, and a caller compares
 * the two once, before its first call: with another version it would take the numbers of an answer for what they aren't.
 * From 1 to 2 no place of any number has changed, but answer 4 has a second value. An archive of version 1 has 0 there, by
 * which every broken text would pass for a cut one.
 */
#define YERONDATT_LAYOUT_VERSION 2

uint64_t yerondatt_layout_version(void);

/*
 * An image is the bytes in which a record crosses. It begins with a head, and the record follows at byte 40. A number in it
 * takes eight bytes, least significant first, whatever its width. An address stands in it as on the wire. The report of a
 * write is a head alone.
 */
#define YERONDATT_HEAD_ANSWER 0  /* the answer's number */
#define YERONDATT_HEAD_VALUES 8  /* its three values */
#define YERONDATT_HEAD_COUNT 32  /* the used count, or the written length */
#define YERONDATT_HEAD_SIZE 40
#define YERONDATT_REPORT_SIZE 40

struct yerondatt_head {
    uint64_t answer;    /* see enum yerondatt_answer */
    uint64_t values[3]; /* see there */
    size_t count;       /* bytes that a read used of the payload, or that a write wrote; 0 where it is refused */
};

/* A text: so many bytes at a place of the lent texts. After a read these are the payload. */
struct yerondatt_text {
    size_t place; /* in bytes from the start of the texts */
    size_t len;   /* in bytes */
};

/*
 * A list of texts: a run of fields in wire form, one behind the other, each a length of two bytes, most significant first,
 * and so many bytes of text. The empty list has len 0 and count 0.
 */
struct yerondatt_list {
    size_t place; /* in bytes from the start of the texts */
    size_t len;   /* in bytes, the length bytes of each field too */
    size_t count; /* how many texts */
};

/* Numbers in an image. */

static inline uint64_t yerondatt_number_at(const uint8_t *bytes)
{
    return (uint64_t)bytes[0] | (uint64_t)bytes[1] << 8 | (uint64_t)bytes[2] << 16 | (uint64_t)bytes[3] << 24
           | (uint64_t)bytes[4] << 32 | (uint64_t)bytes[5] << 40 | (uint64_t)bytes[6] << 48 | (uint64_t)bytes[7] << 56;
}

static inline void yerondatt_put_number(uint8_t *bytes, uint64_t x)
{
    bytes[0] = (uint8_t)(x & 0xFF);
    bytes[1] = (uint8_t)(x >> 8 & 0xFF);
    bytes[2] = (uint8_t)(x >> 16 & 0xFF);
    bytes[3] = (uint8_t)(x >> 24 & 0xFF);
    bytes[4] = (uint8_t)(x >> 32 & 0xFF);
    bytes[5] = (uint8_t)(x >> 40 & 0xFF);
    bytes[6] = (uint8_t)(x >> 48 & 0xFF);
    bytes[7] = (uint8_t)(x >> 56 & 0xFF);
}

/* A flag in the bit of a byte, and back. */

static inline bool yerondatt_bit_at(const uint8_t *bytes, unsigned bit)
{
    return (bytes[0] >> bit & 1u) != 0;
}

static inline void yerondatt_put_bit(uint8_t *bytes, unsigned bit, bool is_set)
{
    if (is_set)
        bytes[0] = (uint8_t)(bytes[0] | 1u << bit);
}

/* An address where it is present. What stands in an absent one isn't looked at. */
static inline void yerondatt_put_address(uint8_t *bytes, bool is_given, const uint8_t *address, size_t len)
{
    if (is_given)
        memcpy(bytes, address, len);
}

/* The head of an image of at least 40 bytes, or a report. */
static inline struct yerondatt_head yerondatt_head_from_image(const uint8_t *image)
{
    struct yerondatt_head head;
    head.answer = yerondatt_number_at(image + YERONDATT_HEAD_ANSWER);
    head.values[0] = yerondatt_number_at(image + YERONDATT_HEAD_VALUES);
    head.values[1] = yerondatt_number_at(image + YERONDATT_HEAD_VALUES + 8);
    head.values[2] = yerondatt_number_at(image + YERONDATT_HEAD_VALUES + 16);
    head.count = (size_t)yerondatt_number_at(image + YERONDATT_HEAD_COUNT);
    return head;
}

static inline struct yerondatt_text yerondatt_text_from_image(const uint8_t *image, size_t at)
{
    struct yerondatt_text text;
    text.place = (size_t)yerondatt_number_at(image + at);
    text.len = (size_t)yerondatt_number_at(image + at + 8);
    return text;
}

static inline void yerondatt_text_to_image(struct yerondatt_text text, uint8_t *image, size_t at)
{
    yerondatt_put_number(image + at, text.place);
    yerondatt_put_number(image + at + 8, text.len);
}

static inline struct yerondatt_list yerondatt_list_from_image(const uint8_t *image, size_t at)
{
    struct yerondatt_list list;
    list.place = (size_t)yerondatt_number_at(image + at);
    list.len = (size_t)yerondatt_number_at(image + at + 8);
    list.count = (size_t)yerondatt_number_at(image + at + 16);
    return list;
}

static inline void yerondatt_list_to_image(struct yerondatt_list list, uint8_t *image, size_t at)
{
    yerondatt_put_number(image + at, list.place);
    yerondatt_put_number(image + at + 8, list.len);
    yerondatt_put_number(image + at + 16, list.count);
}

/*
 * Takes the first text off a list, and says whether there was one. It looks at no byte outside the list's own.
 *
 *     struct yerondatt_list rest = record.additional_url;
 *     struct yerondatt_text url;
 *     while (yerondatt_list_next(payload, &rest, &url))
 *         use(payload + url.place, url.len);
 */
static inline bool yerondatt_list_next(const uint8_t *texts, struct yerondatt_list *rest, struct yerondatt_text *text)
{
    size_t len;
    if (rest->count == 0 || rest->len < 2)
        return false;
    len = (size_t)texts[rest->place] << 8 | (size_t)texts[rest->place + 1];
    if (rest->len - 2 < len)
        return false;
    text->place = rest->place + 2;
    text->len = len;
    rest->place += 2 + len;
    rest->len -= 2 + len;
    rest->count -= 1;
    return true;
}

/*
 * ---- The kinds --------------------------------------------------------------------------------------------------
 *
 * Of each kind KIND there are
 *
 * yerondatt_KIND_read     reads a payload into an image, and returns the answer's number. Of the image the first SIZE bytes
 *                         are written, all of them. A refused payload gives the empty record: flags 0, numbers 0, nothing
 *                         present, lists empty (a Node ID: the empty name), and used count 0. An image shorter than SIZE is
 *                         answered 8 and not changed.
 * yerondatt_KIND_write    writes the record of an image into an output, and returns the answer's number. The head of the
 *                         image isn't looked at. The report gets the answer, its values and the written length. Only that
 *                         many bytes of the output are changed, none where the write is refused. An image shorter than SIZE
 *                         or a report shorter than 40 is answered 8, and neither output nor report is changed. The kinds
 *                         that have texts are also lent the bytes that the texts are in.
 * yerondatt_KIND_strict   1 where the payload is accepted and keeps what TS 29.244 asks besides, 0 where not. What that is, and
 *                         what is judged otherwise than it is read (of a Node ID), stands at the function.
 * struct yerondatt_KIND   the record.
 * yerondatt_KIND_from_image    the record in an image of SIZE bytes.
 * yerondatt_KIND_to_image      lays a record into an image of SIZE bytes, with a head of zeros.
 *
 * A field that may be absent has a flag has_FIELD beside it. Where that is false the field counts for nothing, and is 0 after
 * a read. The flags of the wire (v4, v6, ..) are apart from it, since a record may have a flag without its field, or a field
 * without its flag: a write puts the flags as they are, and the fields that are present. Each struct says by which flags a
 * field is present after a read, and where a write does otherwise.
 */

/* ---- UE IP Address ---------------------------------------------------------------------------------------------- */

#define YERONDATT_UE_IP_ADDRESS_SIZE 64
#define YERONDATT_UE_IP_ADDRESS_FLAGS 40 /* bit 0 V6, 1 V4, 2 S/D, 3 IPv6D, 4 CHV4, 5 CHV6, 6 IP6PL */
#define YERONDATT_UE_IP_ADDRESS_GIVEN 41 /* bit 0 IPv4, 1 IPv6, 2 delegation bits, 3 prefix length */
#define YERONDATT_UE_IP_ADDRESS_DELEGATION_BITS 42 /* a byte */
#define YERONDATT_UE_IP_ADDRESS_PREFIX_LENGTH 43   /* a byte */
#define YERONDATT_UE_IP_ADDRESS_IPV4 44            /* 4 bytes */
#define YERONDATT_UE_IP_ADDRESS_IPV6 48            /* 16 bytes */

struct yerondatt_ue_ip_address {
    bool v6;                         /* V6: an IPv6 address follows */
    bool v4;                         /* V4: an IPv4 address follows */
    bool source_destination;         /* S/D: in packet detection, false the source address, true the destination */
    bool ipv6_prefix_delegation;     /* IPv6D: delegation bits follow */
    bool choose_ipv4;                /* CHV4: the user plane is to choose an IPv4 address */
    bool choose_ipv6;                /* CHV6: the same of IPv6 */
    bool ipv6_prefix_length_present; /* IP6PL: a prefix length follows */
    bool has_ipv4_address;           /* read: V4 */
    bool has_ipv6_address;           /* read: V6 */
    bool has_ipv6_prefix_delegation_bits; /* read: IPv6D */
    bool has_ipv6_prefix_length;          /* read: IP6PL */
    uint8_t ipv4_address[4];              /* as on the wire */
    uint8_t ipv6_address[16];             /* as on the wire */
    uint8_t ipv6_prefix_delegation_bits;  /* in bits; any byte is accepted */
    uint8_t ipv6_prefix_length;           /* in bits; any byte is accepted */
};

uint64_t yerondatt_ue_ip_address_read(const uint8_t *payload, size_t payload_len, uint8_t *image, size_t image_len);
uint64_t yerondatt_ue_ip_address_write(const uint8_t *image, size_t image_len, uint8_t *out, size_t out_len, uint8_t *report,
                                       size_t report_len);
uint64_t yerondatt_ue_ip_address_strict(const uint8_t *payload, size_t payload_len);

static inline struct yerondatt_ue_ip_address yerondatt_ue_ip_address_from_image(const uint8_t *image)
{
    const uint8_t *flags = image + YERONDATT_UE_IP_ADDRESS_FLAGS;
    const uint8_t *given = image + YERONDATT_UE_IP_ADDRESS_GIVEN;
    struct yerondatt_ue_ip_address record;
    record.v6 = yerondatt_bit_at(flags, 0);
    record.v4 = yerondatt_bit_at(flags, 1);
    record.source_destination = yerondatt_bit_at(flags, 2);
    record.ipv6_prefix_delegation = yerondatt_bit_at(flags, 3);
    record.choose_ipv4 = yerondatt_bit_at(flags, 4);
    record.choose_ipv6 = yerondatt_bit_at(flags, 5);
    record.ipv6_prefix_length_present = yerondatt_bit_at(flags, 6);
    record.has_ipv4_address = yerondatt_bit_at(given, 0);
    record.has_ipv6_address = yerondatt_bit_at(given, 1);
    record.has_ipv6_prefix_delegation_bits = yerondatt_bit_at(given, 2);
    record.has_ipv6_prefix_length = yerondatt_bit_at(given, 3);
    memcpy(record.ipv4_address, image + YERONDATT_UE_IP_ADDRESS_IPV4, 4);
    memcpy(record.ipv6_address, image + YERONDATT_UE_IP_ADDRESS_IPV6, 16);
    record.ipv6_prefix_delegation_bits = image[YERONDATT_UE_IP_ADDRESS_DELEGATION_BITS];
    record.ipv6_prefix_length = image[YERONDATT_UE_IP_ADDRESS_PREFIX_LENGTH];
    return record;
}

static inline void yerondatt_ue_ip_address_to_image(const struct yerondatt_ue_ip_address *record, uint8_t *image)
{
    uint8_t *flags = image + YERONDATT_UE_IP_ADDRESS_FLAGS;
    uint8_t *given = image + YERONDATT_UE_IP_ADDRESS_GIVEN;
    memset(image, 0, YERONDATT_UE_IP_ADDRESS_SIZE);
    yerondatt_put_bit(flags, 0, record->v6);
    yerondatt_put_bit(flags, 1, record->v4);
    yerondatt_put_bit(flags, 2, record->source_destination);
    yerondatt_put_bit(flags, 3, record->ipv6_prefix_delegation);
    yerondatt_put_bit(flags, 4, record->choose_ipv4);
    yerondatt_put_bit(flags, 5, record->choose_ipv6);
    yerondatt_put_bit(flags, 6, record->ipv6_prefix_length_present);
    yerondatt_put_bit(given, 0, record->has_ipv4_address);
    yerondatt_put_bit(given, 1, record->has_ipv6_address);
    yerondatt_put_bit(given, 2, record->has_ipv6_prefix_delegation_bits);
    yerondatt_put_bit(given, 3, record->has_ipv6_prefix_length);
    yerondatt_put_address(image + YERONDATT_UE_IP_ADDRESS_IPV4, record->has_ipv4_address, record->ipv4_address, 4);
    yerondatt_put_address(image + YERONDATT_UE_IP_ADDRESS_IPV6, record->has_ipv6_address, record->ipv6_address, 16);
    if (record->has_ipv6_prefix_delegation_bits)
        image[YERONDATT_UE_IP_ADDRESS_DELEGATION_BITS] = record->ipv6_prefix_delegation_bits;
    if (record->has_ipv6_prefix_length)
        image[YERONDATT_UE_IP_ADDRESS_PREFIX_LENGTH] = record->ipv6_prefix_length;
}

/* ---- F-TEID ----------------------------------------------------------------------------------------------------- */

#define YERONDATT_F_TEID_SIZE 71
#define YERONDATT_F_TEID_FLAGS 40     /* bit 0 V4, 1 V6, 2 CH, 3 CHID */
#define YERONDATT_F_TEID_GIVEN 41     /* bit 0 IPv4, 1 IPv6 */
#define YERONDATT_F_TEID_TEID 42      /* a number whose low 32 bits count */
#define YERONDATT_F_TEID_CHOOSE_ID 50 /* a byte */
#define YERONDATT_F_TEID_IPV4 51      /* 4 bytes */
#define YERONDATT_F_TEID_IPV6 55      /* 16 bytes */

struct yerondatt_f_teid {
    bool v4;                  /* V4: an IPv4 address follows, or is to be chosen */
    bool v6;                  /* V6: an IPv6 address follows, or is to be chosen */
    bool ch;                  /* CH: the user plane is to choose. Then no TEID and no address is on the wire */
    bool chid;                /* CHID: a choose ID follows. It is on the wire with CH only */
    bool has_ipv4_address;    /* read: V4 without CH. With CH it isn't written */
    bool has_ipv6_address;    /* read: V6 without CH. With CH it isn't written */
    uint8_t choose_id;        /* read and written with CH and CHID, otherwise 0 after a read */
    uint32_t teid;            /* without CH; with CH it is 0 after a read and isn't written */
    uint8_t ipv4_address[4];  /* as on the wire */
    uint8_t ipv6_address[16]; /* as on the wire */
};

uint64_t yerondatt_f_teid_read(const uint8_t *payload, size_t payload_len, uint8_t *image, size_t image_len);
uint64_t yerondatt_f_teid_write(const uint8_t *image, size_t image_len, uint8_t *out, size_t out_len, uint8_t *report,
                                size_t report_len);
/* It needs V4 or V6. */
uint64_t yerondatt_f_teid_strict(const uint8_t *payload, size_t payload_len);

static inline struct yerondatt_f_teid yerondatt_f_teid_from_image(const uint8_t *image)
{
    const uint8_t *flags = image + YERONDATT_F_TEID_FLAGS;
    const uint8_t *given = image + YERONDATT_F_TEID_GIVEN;
    struct yerondatt_f_teid record;
    record.v4 = yerondatt_bit_at(flags, 0);
    record.v6 = yerondatt_bit_at(flags, 1);
    record.ch = yerondatt_bit_at(flags, 2);
    record.chid = yerondatt_bit_at(flags, 3);
    record.has_ipv4_address = yerondatt_bit_at(given, 0);
    record.has_ipv6_address = yerondatt_bit_at(given, 1);
    record.choose_id = image[YERONDATT_F_TEID_CHOOSE_ID];
    record.teid = (uint32_t)(yerondatt_number_at(image + YERONDATT_F_TEID_TEID) & 0xFFFFFFFFu);
    memcpy(record.ipv4_address, image + YERONDATT_F_TEID_IPV4, 4);
    memcpy(record.ipv6_address, image + YERONDATT_F_TEID_IPV6, 16);
    return record;
}

static inline void yerondatt_f_teid_to_image(const struct yerondatt_f_teid *record, uint8_t *image)
{
    uint8_t *flags = image + YERONDATT_F_TEID_FLAGS;
    uint8_t *given = image + YERONDATT_F_TEID_GIVEN;
    memset(image, 0, YERONDATT_F_TEID_SIZE);
    yerondatt_put_bit(flags, 0, record->v4);
    yerondatt_put_bit(flags, 1, record->v6);
    yerondatt_put_bit(flags, 2, record->ch);
    yerondatt_put_bit(flags, 3, record->chid);
    yerondatt_put_bit(given, 0, record->has_ipv4_address);
    yerondatt_put_bit(given, 1, record->has_ipv6_address);
    image[YERONDATT_F_TEID_CHOOSE_ID] = record->choose_id;
    yerondatt_put_number(image + YERONDATT_F_TEID_TEID, record->teid);
    yerondatt_put_address(image + YERONDATT_F_TEID_IPV4, record->has_ipv4_address, record->ipv4_address, 4);
    yerondatt_put_address(image + YERONDATT_F_TEID_IPV6, record->has_ipv6_address, record->ipv6_address, 16);
}

/* ---- F-SEID ----------------------------------------------------------------------------------------------------- */

#define YERONDATT_FSEID_SIZE 70
#define YERONDATT_FSEID_FLAGS 40 /* bit 0 V6, 1 V4 */
#define YERONDATT_FSEID_GIVEN 41 /* bit 0 IPv4, 1 IPv6 */
#define YERONDATT_FSEID_SEID 42  /* a number */
#define YERONDATT_FSEID_IPV4 50  /* 4 bytes */
#define YERONDATT_FSEID_IPV6 54  /* 16 bytes */

struct yerondatt_fseid {
    bool v6;                  /* V6: an IPv6 address follows */
    bool v4;                  /* V4: an IPv4 address follows */
    bool has_ipv4_address;    /* read: V4 */
    bool has_ipv6_address;    /* read: V6 */
    uint64_t seid;            /* always there */
    uint8_t ipv4_address[4];  /* as on the wire */
    uint8_t ipv6_address[16]; /* as on the wire */
};

uint64_t yerondatt_fseid_read(const uint8_t *payload, size_t payload_len, uint8_t *image, size_t image_len);
uint64_t yerondatt_fseid_write(const uint8_t *image, size_t image_len, uint8_t *out, size_t out_len, uint8_t *report,
                               size_t report_len);
/* It needs V4 or V6. */
uint64_t yerondatt_fseid_strict(const uint8_t *payload, size_t payload_len);

static inline struct yerondatt_fseid yerondatt_fseid_from_image(const uint8_t *image)
{
    const uint8_t *flags = image + YERONDATT_FSEID_FLAGS;
    const uint8_t *given = image + YERONDATT_FSEID_GIVEN;
    struct yerondatt_fseid record;
    record.v6 = yerondatt_bit_at(flags, 0);
    record.v4 = yerondatt_bit_at(flags, 1);
    record.has_ipv4_address = yerondatt_bit_at(given, 0);
    record.has_ipv6_address = yerondatt_bit_at(given, 1);
    record.seid = yerondatt_number_at(image + YERONDATT_FSEID_SEID);
    memcpy(record.ipv4_address, image + YERONDATT_FSEID_IPV4, 4);
    memcpy(record.ipv6_address, image + YERONDATT_FSEID_IPV6, 16);
    return record;
}

static inline void yerondatt_fseid_to_image(const struct yerondatt_fseid *record, uint8_t *image)
{
    uint8_t *flags = image + YERONDATT_FSEID_FLAGS;
    uint8_t *given = image + YERONDATT_FSEID_GIVEN;
    memset(image, 0, YERONDATT_FSEID_SIZE);
    yerondatt_put_bit(flags, 0, record->v6);
    yerondatt_put_bit(flags, 1, record->v4);
    yerondatt_put_bit(given, 0, record->has_ipv4_address);
    yerondatt_put_bit(given, 1, record->has_ipv6_address);
    yerondatt_put_number(image + YERONDATT_FSEID_SEID, record->seid);
    yerondatt_put_address(image + YERONDATT_FSEID_IPV4, record->has_ipv4_address, record->ipv4_address, 4);
    yerondatt_put_address(image + YERONDATT_FSEID_IPV6, record->has_ipv6_address, record->ipv6_address, 16);
}

/* ---- Node ID ---------------------------------------------------------------------------------------------------- */

#define YERONDATT_NODE_ID_SIZE 77
#define YERONDATT_NODE_ID_TYPE 40 /* a byte */
#define YERONDATT_NODE_ID_NAME 41 /* place and length, two numbers */
#define YERONDATT_NODE_ID_IPV4 57 /* 4 bytes */
#define YERONDATT_NODE_ID_IPV6 61 /* 16 bytes */

enum yerondatt_node_id_type {
    YERONDATT_NODE_ID_TYPE_IPV4 = 0,
    YERONDATT_NODE_ID_TYPE_IPV6 = 1,
    YERONDATT_NODE_ID_TYPE_FQDN = 2 /* a name. A write takes any other byte than 0 and 1 for it */
};

struct yerondatt_node_id {
    uint8_t type;               /* which one of the three that follow counts, see enum yerondatt_node_id_type */
    uint8_t ipv4_address[4];    /* type 0, as on the wire */
    uint8_t ipv6_address[16];   /* type 1, as on the wire */
    struct yerondatt_text name; /* type 2, UTF-8, perhaps empty */
};

uint64_t yerondatt_node_id_read(const uint8_t *payload, size_t payload_len, uint8_t *image, size_t image_len);
uint64_t yerondatt_node_id_write(const uint8_t *image, size_t image_len, const uint8_t *texts, size_t texts_len, uint8_t *out,
                                 size_t out_len, uint8_t *report, size_t report_len);
/*
 * It judges the payload with the high four bits of its first byte cleared, since they are spare: 10 C0 00 02 01 is 1, though
 * the read answers 3 there.
 */
uint64_t yerondatt_node_id_strict(const uint8_t *payload, size_t payload_len);

static inline struct yerondatt_node_id yerondatt_node_id_from_image(const uint8_t *image)
{
    struct yerondatt_node_id record;
    record.type = image[YERONDATT_NODE_ID_TYPE];
    memcpy(record.ipv4_address, image + YERONDATT_NODE_ID_IPV4, 4);
    memcpy(record.ipv6_address, image + YERONDATT_NODE_ID_IPV6, 16);
    record.name = yerondatt_text_from_image(image, YERONDATT_NODE_ID_NAME);
    return record;
}

static inline void yerondatt_node_id_to_image(const struct yerondatt_node_id *record, uint8_t *image)
{
    bool is_ipv4 = record->type == YERONDATT_NODE_ID_TYPE_IPV4;
    bool is_ipv6 = record->type == YERONDATT_NODE_ID_TYPE_IPV6;
    memset(image, 0, YERONDATT_NODE_ID_SIZE);
    image[YERONDATT_NODE_ID_TYPE] = record->type;
    yerondatt_put_address(image + YERONDATT_NODE_ID_IPV4, is_ipv4, record->ipv4_address, 4);
    yerondatt_put_address(image + YERONDATT_NODE_ID_IPV6, is_ipv6, record->ipv6_address, 16);
    if (!is_ipv4 && !is_ipv6)
        yerondatt_text_to_image(record->name, image, YERONDATT_NODE_ID_NAME);
}

/* ---- Outer Header Creation -------------------------------------------------------------------------------------- */

#define YERONDATT_OUTER_HEADER_CREATION_SIZE 94
#define YERONDATT_OUTER_HEADER_CREATION_FLAGS 40 /* see enum yerondatt_outer_header */
#define YERONDATT_OUTER_HEADER_CREATION_GIVEN 41 /* bit 0 IPv4, 1 IPv6, 2 TEID, 3 port, 4 C-TAG, 5 S-TAG */
#define YERONDATT_OUTER_HEADER_CREATION_TEID 42  /* a number whose low 32 bits count */
#define YERONDATT_OUTER_HEADER_CREATION_PORT 50  /* a number whose low 16 bits count */
#define YERONDATT_OUTER_HEADER_CREATION_CTAG 58  /* a number whose low 32 bits count */
#define YERONDATT_OUTER_HEADER_CREATION_STAG 66  /* a number whose low 32 bits count */
#define YERONDATT_OUTER_HEADER_CREATION_IPV4 74  /* 4 bytes */
#define YERONDATT_OUTER_HEADER_CREATION_IPV6 78  /* 16 bytes */

enum yerondatt_outer_header {
    YERONDATT_OUTER_HEADER_GTPU_UDP_IPV4 = 0x01,
    YERONDATT_OUTER_HEADER_GTPU_UDP_IPV6 = 0x02,
    YERONDATT_OUTER_HEADER_UDP_IPV4 = 0x04,
    YERONDATT_OUTER_HEADER_UDP_IPV6 = 0x08,
    YERONDATT_OUTER_HEADER_IPV4 = 0x10,
    YERONDATT_OUTER_HEADER_IPV6 = 0x20,
    YERONDATT_OUTER_HEADER_CTAG = 0x40,
    YERONDATT_OUTER_HEADER_STAG = 0x80
};

/*
 * Here a field is read, and written, only under its flags. Under them an absent TEID or port is written as 0, and an absent
 * address or tag is left out.
 */
struct yerondatt_outer_header_creation {
    uint8_t description;      /* the flags together, see enum yerondatt_outer_header */
    bool has_teid;            /* under 0x01 or 0x02 */
    bool has_ipv4_address;    /* under 0x01, 0x04 or 0x10 */
    bool has_ipv6_address;    /* under 0x02, 0x08 or 0x20 */
    bool has_port_number;     /* under 0x04 or 0x08 */
    bool has_ctag;            /* under 0x40 */
    bool has_stag;            /* under 0x80 */
    uint32_t teid;            /* a tunnel's identifier */
    uint8_t ipv4_address[4];  /* as on the wire */
    uint8_t ipv6_address[16]; /* as on the wire */
    uint16_t port_number;     /* a UDP port */
    uint32_t ctag;            /* three bytes of the wire; of a wider number the low 24 bits are written */
    uint32_t stag;            /* the same */
};

uint64_t yerondatt_outer_header_creation_read(const uint8_t *payload, size_t payload_len, uint8_t *image, size_t image_len);
uint64_t yerondatt_outer_header_creation_write(const uint8_t *image, size_t image_len, uint8_t *out, size_t out_len,
                                               uint8_t *report, size_t report_len);
uint64_t yerondatt_outer_header_creation_strict(const uint8_t *payload, size_t payload_len);

static inline struct yerondatt_outer_header_creation yerondatt_outer_header_creation_from_image(const uint8_t *image)
{
    const uint8_t *given = image + YERONDATT_OUTER_HEADER_CREATION_GIVEN;
    struct yerondatt_outer_header_creation record;
    record.description = image[YERONDATT_OUTER_HEADER_CREATION_FLAGS];
    record.has_ipv4_address = yerondatt_bit_at(given, 0);
    record.has_ipv6_address = yerondatt_bit_at(given, 1);
    record.has_teid = yerondatt_bit_at(given, 2);
    record.has_port_number = yerondatt_bit_at(given, 3);
    record.has_ctag = yerondatt_bit_at(given, 4);
    record.has_stag = yerondatt_bit_at(given, 5);
    record.teid = (uint32_t)(yerondatt_number_at(image + YERONDATT_OUTER_HEADER_CREATION_TEID) & 0xFFFFFFFFu);
    record.port_number = (uint16_t)(yerondatt_number_at(image + YERONDATT_OUTER_HEADER_CREATION_PORT) & 0xFFFFu);
    record.ctag = (uint32_t)(yerondatt_number_at(image + YERONDATT_OUTER_HEADER_CREATION_CTAG) & 0xFFFFFFFFu);
    record.stag = (uint32_t)(yerondatt_number_at(image + YERONDATT_OUTER_HEADER_CREATION_STAG) & 0xFFFFFFFFu);
    memcpy(record.ipv4_address, image + YERONDATT_OUTER_HEADER_CREATION_IPV4, 4);
    memcpy(record.ipv6_address, image + YERONDATT_OUTER_HEADER_CREATION_IPV6, 16);
    return record;
}

static inline void yerondatt_outer_header_creation_to_image(const struct yerondatt_outer_header_creation *record,
                                                            uint8_t *image)
{
    uint8_t *given = image + YERONDATT_OUTER_HEADER_CREATION_GIVEN;
    memset(image, 0, YERONDATT_OUTER_HEADER_CREATION_SIZE);
    image[YERONDATT_OUTER_HEADER_CREATION_FLAGS] = record->description;
    yerondatt_put_bit(given, 0, record->has_ipv4_address);
    yerondatt_put_bit(given, 1, record->has_ipv6_address);
    yerondatt_put_bit(given, 2, record->has_teid);
    yerondatt_put_bit(given, 3, record->has_port_number);
    yerondatt_put_bit(given, 4, record->has_ctag);
    yerondatt_put_bit(given, 5, record->has_stag);
    if (record->has_teid)
        yerondatt_put_number(image + YERONDATT_OUTER_HEADER_CREATION_TEID, record->teid);
    if (record->has_port_number)
        yerondatt_put_number(image + YERONDATT_OUTER_HEADER_CREATION_PORT, record->port_number);
    if (record->has_ctag)
        yerondatt_put_number(image + YERONDATT_OUTER_HEADER_CREATION_CTAG, record->ctag);
    if (record->has_stag)
        yerondatt_put_number(image + YERONDATT_OUTER_HEADER_CREATION_STAG, record->stag);
    yerondatt_put_address(image + YERONDATT_OUTER_HEADER_CREATION_IPV4, record->has_ipv4_address, record->ipv4_address, 4);
    yerondatt_put_address(image + YERONDATT_OUTER_HEADER_CREATION_IPV6, record->has_ipv6_address, record->ipv6_address, 16);
}

/* ---- PFD Contents ----------------------------------------------------------------------------------------------- */

#define YERONDATT_PFD_CONTENTS_SIZE 194
#define YERONDATT_PFD_CONTENTS_FLAGS 40 /* see enum yerondatt_pfd_flag */
#define YERONDATT_PFD_CONTENTS_GIVEN 41 /* bit 0 flow description, 1 URL, 2 domain name, 3 custom, 4 protocol */
#define YERONDATT_PFD_CONTENTS_FLOW_DESCRIPTION 42      /* place and length, two numbers */
#define YERONDATT_PFD_CONTENTS_URL 58                   /* the same */
#define YERONDATT_PFD_CONTENTS_DOMAIN_NAME 74           /* the same */
#define YERONDATT_PFD_CONTENTS_CUSTOM_PFD_CONTENT 90    /* the same */
#define YERONDATT_PFD_CONTENTS_DOMAIN_NAME_PROTOCOL 106 /* the same */
#define YERONDATT_PFD_CONTENTS_ADDITIONAL_FLOW_DESCRIPTION 122         /* place, length and count, three numbers */
#define YERONDATT_PFD_CONTENTS_ADDITIONAL_URL 146                      /* the same */
#define YERONDATT_PFD_CONTENTS_ADDITIONAL_DOMAIN_NAME_AND_PROTOCOL 170 /* the same */

enum yerondatt_pfd_flag {
    YERONDATT_PFD_FLOW_DESCRIPTION = 0x01,
    YERONDATT_PFD_URL = 0x02,
    YERONDATT_PFD_DOMAIN_NAME = 0x04,
    YERONDATT_PFD_CUSTOM_PFD_CONTENT = 0x08,
    YERONDATT_PFD_DOMAIN_NAME_PROTOCOL = 0x10,
    YERONDATT_PFD_ADDITIONAL_FLOW_DESCRIPTION = 0x20,
    YERONDATT_PFD_ADDITIONAL_URL = 0x40,
    YERONDATT_PFD_ADDITIONAL_DOMAIN_NAME_AND_PROTOCOL = 0x80
};

/*
 * A flag doesn't prove that its field is there: where fewer than two bytes are left of the payload, a flagged field is absent
 * and a flagged list empty. A flagged list takes all fields that are left, but only one where a later list is flagged too. A
 * write puts the flags as they are, the fields that are present, and the lists that aren't empty.
 */
struct yerondatt_pfd_contents {
    uint8_t flags;                               /* all eight, see enum yerondatt_pfd_flag */
    bool has_flow_description;                   /* read: flagged, and there */
    bool has_url;                                /* the same */
    bool has_domain_name;                        /* the same */
    bool has_custom_pfd_content;                 /* the same */
    bool has_domain_name_protocol;               /* the same */
    struct yerondatt_text flow_description;      /* texts are UTF-8, perhaps empty */
    struct yerondatt_text url;
    struct yerondatt_text domain_name;
    struct yerondatt_text custom_pfd_content;
    struct yerondatt_text domain_name_protocol;
    struct yerondatt_list additional_flow_description; /* lists have count 0 where they aren't there */
    struct yerondatt_list additional_url;
    struct yerondatt_list additional_domain_name_and_protocol;
};

uint64_t yerondatt_pfd_contents_read(const uint8_t *payload, size_t payload_len, uint8_t *image, size_t image_len);
uint64_t yerondatt_pfd_contents_write(const uint8_t *image, size_t image_len, const uint8_t *texts, size_t texts_len,
                                      uint8_t *out, size_t out_len, uint8_t *report, size_t report_len);
/* It needs each flagged field to be there and each flagged list to have an entry. */
uint64_t yerondatt_pfd_contents_strict(const uint8_t *payload, size_t payload_len);

static inline struct yerondatt_pfd_contents yerondatt_pfd_contents_from_image(const uint8_t *image)
{
    const uint8_t *given = image + YERONDATT_PFD_CONTENTS_GIVEN;
    struct yerondatt_pfd_contents record;
    record.flags = image[YERONDATT_PFD_CONTENTS_FLAGS];
    record.has_flow_description = yerondatt_bit_at(given, 0);
    record.has_url = yerondatt_bit_at(given, 1);
    record.has_domain_name = yerondatt_bit_at(given, 2);
    record.has_custom_pfd_content = yerondatt_bit_at(given, 3);
    record.has_domain_name_protocol = yerondatt_bit_at(given, 4);
    record.flow_description = yerondatt_text_from_image(image, YERONDATT_PFD_CONTENTS_FLOW_DESCRIPTION);
    record.url = yerondatt_text_from_image(image, YERONDATT_PFD_CONTENTS_URL);
    record.domain_name = yerondatt_text_from_image(image, YERONDATT_PFD_CONTENTS_DOMAIN_NAME);
    record.custom_pfd_content = yerondatt_text_from_image(image, YERONDATT_PFD_CONTENTS_CUSTOM_PFD_CONTENT);
    record.domain_name_protocol = yerondatt_text_from_image(image, YERONDATT_PFD_CONTENTS_DOMAIN_NAME_PROTOCOL);
    record.additional_flow_description =
        yerondatt_list_from_image(image, YERONDATT_PFD_CONTENTS_ADDITIONAL_FLOW_DESCRIPTION);
    record.additional_url = yerondatt_list_from_image(image, YERONDATT_PFD_CONTENTS_ADDITIONAL_URL);
    record.additional_domain_name_and_protocol =
        yerondatt_list_from_image(image, YERONDATT_PFD_CONTENTS_ADDITIONAL_DOMAIN_NAME_AND_PROTOCOL);
    return record;
}

static inline void yerondatt_pfd_contents_to_image(const struct yerondatt_pfd_contents *record, uint8_t *image)
{
    uint8_t *given = image + YERONDATT_PFD_CONTENTS_GIVEN;
    memset(image, 0, YERONDATT_PFD_CONTENTS_SIZE);
    image[YERONDATT_PFD_CONTENTS_FLAGS] = record->flags;
    yerondatt_put_bit(given, 0, record->has_flow_description);
    yerondatt_put_bit(given, 1, record->has_url);
    yerondatt_put_bit(given, 2, record->has_domain_name);
    yerondatt_put_bit(given, 3, record->has_custom_pfd_content);
    yerondatt_put_bit(given, 4, record->has_domain_name_protocol);
    if (record->has_flow_description)
        yerondatt_text_to_image(record->flow_description, image, YERONDATT_PFD_CONTENTS_FLOW_DESCRIPTION);
    if (record->has_url)
        yerondatt_text_to_image(record->url, image, YERONDATT_PFD_CONTENTS_URL);
    if (record->has_domain_name)
        yerondatt_text_to_image(record->domain_name, image, YERONDATT_PFD_CONTENTS_DOMAIN_NAME);
    if (record->has_custom_pfd_content)
        yerondatt_text_to_image(record->custom_pfd_content, image, YERONDATT_PFD_CONTENTS_CUSTOM_PFD_CONTENT);
    if (record->has_domain_name_protocol)
        yerondatt_text_to_image(record->domain_name_protocol, image, YERONDATT_PFD_CONTENTS_DOMAIN_NAME_PROTOCOL);
    yerondatt_list_to_image(record->additional_flow_description, image,
                            YERONDATT_PFD_CONTENTS_ADDITIONAL_FLOW_DESCRIPTION);
    yerondatt_list_to_image(record->additional_url, image, YERONDATT_PFD_CONTENTS_ADDITIONAL_URL);
    yerondatt_list_to_image(record->additional_domain_name_and_protocol, image,
                            YERONDATT_PFD_CONTENTS_ADDITIONAL_DOMAIN_NAME_AND_PROTOCOL);
}

#ifdef __cplusplus
}
#endif

#endif
