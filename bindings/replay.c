/*
 * replay <LINES >ANSWERS
 * Answers recorded lines through libyerondatt.a and its header, each as the programs `probe` and `compose` do: payloads to be read
 * or judged, records to be written, texts by their places (oracle/README.md has the forms). bindings/lines.awk picks the lines.
 * Every record goes from the image into its struct, is printed from the struct, is laid into an image again and written.
 * What an answer doesn't show is tested on the way; a line that fails is named on the error output, and the exit status
 * is 1.
 */
#define _DEFAULT_SOURCE
#include "kinds.h"
#include "lent.h"

#include <inttypes.h>

static struct lent lent_payload, lent_image, lent_again, lent_out, lent_report;
static size_t line_number, failures;

static void must(bool is_so, const char *what)
{
    if (is_so)
        return;
    failures++;
    fprintf(stderr, "replay: line %zu: %s\n", line_number, what);
}

/* ---- words of a line ---- */

struct word {
    const char *at;
    size_t len;
};

/* Takes off what stands before the first such mark. */
static struct word cut(struct word *rest, char mark)
{
    struct word first = *rest;
    const char *found = first.len == 0 ? NULL : memchr(first.at, mark, first.len);
    if (found == NULL) {
        rest->len = 0;
        return first;
    }
    first.len = (size_t)(found - first.at);
    rest->at += first.len + 1;
    rest->len -= first.len + 1;
    return first;
}

static bool is_word(struct word word, const char *text)
{
    return word.len == strlen(text) && memcmp(word.at, text, word.len) == 0;
}

/* What stands behind a key, where a word begins with it. */
static bool find(struct word line, const char *key, struct word *value)
{
    size_t len = strlen(key);
    while (line.len != 0) {
        struct word word = cut(&line, ' ');
        if (word.len >= len && memcmp(word.at, key, len) == 0) {
            value->at = word.at + len;
            value->len = word.len - len;
            return true;
        }
    }
    return false;
}

static unsigned digit(char c)
{
    if (c >= '0' && c <= '9')
        return (unsigned)(c - '0');
    return (unsigned)((c | 0x20) - 'a' + 10);
}

static void put_hex(struct word digits, uint8_t *to)
{
    size_t i;
    for (i = 0; i + 1 < digits.len; i += 2)
        to[i / 2] = (uint8_t)(digit(digits.at[i]) << 4 | digit(digits.at[i + 1]));
}

static uint64_t decimal(struct word digits)
{
    uint64_t x = 0;
    size_t i;
    for (i = 0; i < digits.len; i++)
        x = x * 10 + digit(digits.at[i]);
    return x;
}

/* A number in hex; 0 where the key isn't there. */
static uint64_t number(struct word line, const char *key, bool *given)
{
    struct word digits;
    uint64_t x = 0;
    size_t i;
    *given = find(line, key, &digits);
    for (i = 0; *given && i < digits.len; i++)
        x = x << 4 | digit(digits.at[i]);
    return x;
}

static uint8_t flags_of(struct word line)
{
    bool given;
    return (uint8_t)number(line, "flags=", &given);
}

static bool address(struct word line, const char *key, uint8_t *to)
{
    struct word digits;
    if (!find(line, key, &digits))
        return false;
    put_hex(digits, to);
    return true;
}

/* ---- the texts of a line, one behind the other ---- */

static struct {
    uint8_t *bytes;
    size_t len;
    size_t room;
} texts;

static uint8_t *more_texts(size_t len)
{
    if (texts.room - texts.len < len) {
        texts.room = 2 * (texts.len + len);
        texts.bytes = realloc(texts.bytes, texts.room);
        if (texts.bytes == NULL) {
            perror("replay");
            exit(2);
        }
    }
    texts.len += len;
    return texts.bytes + texts.len - len;
}

/* `-`, hex, or hex, a star and how often it comes. */
static struct yerondatt_text lay_text(struct word rest)
{
    struct yerondatt_text text = {texts.len, 0};
    struct word digits;
    uint64_t times;
    if (is_word(rest, "-"))
        return text;
    digits = cut(&rest, '*');
    times = rest.len == 0 ? 1 : decimal(rest);
    for (; times != 0; times--)
        put_hex(digits, more_texts(digits.len / 2));
    text.len = texts.len - text.place;
    return text;
}

static void lay_entry(struct word value)
{
    size_t at = texts.len;
    struct yerondatt_text text;
    more_texts(2);
    text = lay_text(value);
    texts.bytes[at] = (uint8_t)(text.len >> 8);
    texts.bytes[at + 1] = (uint8_t)text.len;
}

static struct yerondatt_list lay_list(struct word rest)
{
    struct yerondatt_list list = {texts.len, 0, 0};
    while (rest.len != 0) {
        lay_entry(cut(&rest, ','));
        list.count++;
    }
    list.len = texts.len - list.place;
    return list;
}

static void lay_slice(struct word line)
{
    struct word rest;
    if (!find(line, "slice=", &rest))
        return;
    while (rest.len != 0)
        lay_text(cut(&rest, ','));
}

/* PLACE+LENGTH and PLACE+BYTES*COUNT */
static struct yerondatt_text placed_text(struct word rest)
{
    struct yerondatt_text text;
    text.place = decimal(cut(&rest, '+'));
    text.len = decimal(rest);
    return text;
}

static struct yerondatt_list placed_list(struct word rest)
{
    struct yerondatt_list list;
    list.place = decimal(cut(&rest, '+'));
    list.len = decimal(cut(&rest, '*'));
    list.count = decimal(rest);
    return list;
}

/* ---- what is printed ---- */

static void show_bytes(const uint8_t *bytes, size_t len)
{
    size_t i;
    for (i = 0; i < len; i++) {
        putchar("0123456789ABCDEF"[bytes[i] >> 4]);
        putchar("0123456789ABCDEF"[bytes[i] & 15]);
    }
}

static void show_field(const char *name, bool given, const uint8_t *bytes, size_t len)
{
    fputs(name, stdout);
    if (given)
        show_bytes(bytes, len);
    else
        putchar('-');
}

static void show_number(const char *name, bool given, uint64_t x, int digits)
{
    if (given)
        printf("%s%0*" PRIX64, name, digits, x);
    else
        printf("%s-", name);
}

static void show_quoted(const uint8_t *from, struct yerondatt_text text)
{
    putchar('"');
    show_bytes(from + text.place, text.len);
    putchar('"');
}

static void show_text(const char *name, bool given, const uint8_t *from, struct yerondatt_text text, bool has_place)
{
    fputs(name, stdout);
    if (!given) {
        putchar('-');
        return;
    }
    show_quoted(from, text);
    if (has_place)
        printf("@%zu", text.place);
}

static void show_list(const char *name, const uint8_t *from, struct yerondatt_list list, bool has_place)
{
    struct yerondatt_list rest = list;
    struct yerondatt_text text;
    const char *before = "";
    printf("%s[", name);
    for (; yerondatt_list_next(from, &rest, &text); before = ",") {
        fputs(before, stdout);
        show_quoted(from, text);
    }
    must(rest.count == 0 && rest.len == 0, "a list that doesn't divide into its entries");
    putchar(']');
    if (has_place && list.count != 0)
        printf("@%zu+%zu", list.place, list.len);
}

static void show_refusal(struct yerondatt_head head)
{
    const uint64_t *v = head.values;
    switch (head.answer) {
    case YERONDATT_SHORT:
        printf("1 0 - | err=1 field=%" PRIu64 " exp=%" PRIu64 " act=%" PRIu64 "\n", v[0], v[1], v[2]);
        break;
    case YERONDATT_FLAGS:
        printf("2 0 - | err=2 flags=%02" PRIX64 " rule=%" PRIu64 "\n", v[0], v[1]);
        break;
    case YERONDATT_NODE_TYPE:
        printf("3 0 - | err=3 type=%02" PRIX64 "\n", v[0]);
        break;
    case YERONDATT_NOT_UTF8:
        printf("4 0 - | err=4 place=%" PRIu64 " bad=%" PRIu64 "\n", v[0], v[1]);
        break;
    case YERONDATT_INPUT_TOO_LONG:
        printf("5 0 - | err=5 len=%" PRIu64 "\n", v[0]);
        break;
    default:
        printf("%" PRIu64 " 0 -\n", head.answer);
    }
}

/* ---- the kinds: a record line laid into an image, an image shown, and what the strict verdict asks of a record ---- */

static void ask_ue_ip_address(struct word line, bool is_raw, uint8_t *image)
{
    struct yerondatt_ue_ip_address r = {0};
    uint8_t flags = flags_of(line);
    (void)is_raw;
    r.v6 = flags & 1;
    r.v4 = flags >> 1 & 1;
    r.source_destination = flags >> 2 & 1;
    r.ipv6_prefix_delegation = flags >> 3 & 1;
    r.choose_ipv4 = flags >> 4 & 1;
    r.choose_ipv6 = flags >> 5 & 1;
    r.ipv6_prefix_length_present = flags >> 6 & 1;
    r.has_ipv4_address = address(line, "v4=", r.ipv4_address);
    r.has_ipv6_address = address(line, "v6=", r.ipv6_address);
    r.ipv6_prefix_delegation_bits = (uint8_t)number(line, "db=", &r.has_ipv6_prefix_delegation_bits);
    r.ipv6_prefix_length = (uint8_t)number(line, "pl=", &r.has_ipv6_prefix_length);
    yerondatt_ue_ip_address_to_image(&r, image);
}

static void show_ue_ip_address(const uint8_t *image, const uint8_t *from, bool has_places)
{
    struct yerondatt_ue_ip_address r = yerondatt_ue_ip_address_from_image(image);
    (void)from;
    (void)has_places;
    printf("rec=U v6=%d v4=%d sd=%d ip6d=%d chv4=%d chv6=%d ip6pl=%d", r.v6, r.v4, r.source_destination,
           r.ipv6_prefix_delegation, r.choose_ipv4, r.choose_ipv6, r.ipv6_prefix_length_present);
    show_field(" ipv4=", r.has_ipv4_address, r.ipv4_address, 4);
    show_field(" ipv6=", r.has_ipv6_address, r.ipv6_address, 16);
    show_number(" db=", r.has_ipv6_prefix_delegation_bits, r.ipv6_prefix_delegation_bits, 2);
    show_number(" pl=", r.has_ipv6_prefix_length, r.ipv6_prefix_length, 2);
}

static void ask_f_teid(struct word line, bool is_raw, uint8_t *image)
{
    struct yerondatt_f_teid r = {0};
    uint8_t flags = flags_of(line);
    bool given;
    (void)is_raw;
    r.v4 = flags & 1;
    r.v6 = flags >> 1 & 1;
    r.ch = flags >> 2 & 1;
    r.chid = flags >> 3 & 1;
    r.has_ipv4_address = address(line, "v4=", r.ipv4_address);
    r.has_ipv6_address = address(line, "v6=", r.ipv6_address);
    r.teid = (uint32_t)number(line, "teid=", &given);
    r.choose_id = (uint8_t)number(line, "cid=", &given);
    yerondatt_f_teid_to_image(&r, image);
}

static void show_f_teid(const uint8_t *image, const uint8_t *from, bool has_places)
{
    struct yerondatt_f_teid r = yerondatt_f_teid_from_image(image);
    (void)from;
    (void)has_places;
    printf("rec=F v4=%d v6=%d ch=%d chid=%d", r.v4, r.v6, r.ch, r.chid);
    show_number(" teid=", true, r.teid, 8);
    show_field(" ipv4=", r.has_ipv4_address, r.ipv4_address, 4);
    show_field(" ipv6=", r.has_ipv6_address, r.ipv6_address, 16);
    show_number(" cid=", true, r.choose_id, 2);
}

static bool is_strict_f_teid(const uint8_t *image)
{
    struct yerondatt_f_teid r = yerondatt_f_teid_from_image(image);
    return r.v4 || r.v6;
}

static void ask_fseid(struct word line, bool is_raw, uint8_t *image)
{
    struct yerondatt_fseid r = {0};
    uint8_t flags = flags_of(line);
    bool given;
    (void)is_raw;
    r.v6 = flags & 1;
    r.v4 = flags >> 1 & 1;
    r.has_ipv4_address = address(line, "v4=", r.ipv4_address);
    r.has_ipv6_address = address(line, "v6=", r.ipv6_address);
    r.seid = number(line, "seid=", &given);
    yerondatt_fseid_to_image(&r, image);
}

static void show_fseid(const uint8_t *image, const uint8_t *from, bool has_places)
{
    struct yerondatt_fseid r = yerondatt_fseid_from_image(image);
    (void)from;
    (void)has_places;
    printf("rec=S v6=%d v4=%d", r.v6, r.v4);
    show_number(" seid=", true, r.seid, 16);
    show_field(" ipv4=", r.has_ipv4_address, r.ipv4_address, 4);
    show_field(" ipv6=", r.has_ipv6_address, r.ipv6_address, 16);
}

static bool is_strict_fseid(const uint8_t *image)
{
    struct yerondatt_fseid r = yerondatt_fseid_from_image(image);
    return r.v4 || r.v6;
}

static void ask_node_id(struct word line, bool is_raw, uint8_t *image)
{
    struct yerondatt_node_id r = {0};
    struct word name;
    r.type = YERONDATT_NODE_ID_TYPE_FQDN;
    if (find(line, "name=", &name))
        r.name = is_raw ? placed_text(name) : lay_text(name);
    if (address(line, "v4=", r.ipv4_address))
        r.type = YERONDATT_NODE_ID_TYPE_IPV4;
    if (address(line, "v6=", r.ipv6_address))
        r.type = YERONDATT_NODE_ID_TYPE_IPV6;
    yerondatt_node_id_to_image(&r, image);
}

static void show_node_id(const uint8_t *image, const uint8_t *from, bool has_places)
{
    struct yerondatt_node_id r = yerondatt_node_id_from_image(image);
    printf("rec=N type=%d", r.type);
    if (r.type == YERONDATT_NODE_ID_TYPE_IPV4)
        show_field(" ipv4=", true, r.ipv4_address, 4);
    else if (r.type == YERONDATT_NODE_ID_TYPE_IPV6)
        show_field(" ipv6=", true, r.ipv6_address, 16);
    else
        show_text(" name=", true, from, r.name, has_places);
}

static void ask_outer_header_creation(struct word line, bool is_raw, uint8_t *image)
{
    struct yerondatt_outer_header_creation r = {0};
    (void)is_raw;
    r.description = flags_of(line);
    r.teid = (uint32_t)number(line, "teid=", &r.has_teid);
    r.has_ipv4_address = address(line, "v4=", r.ipv4_address);
    r.has_ipv6_address = address(line, "v6=", r.ipv6_address);
    r.port_number = (uint16_t)number(line, "port=", &r.has_port_number);
    r.ctag = (uint32_t)number(line, "ctag=", &r.has_ctag);
    r.stag = (uint32_t)number(line, "stag=", &r.has_stag);
    yerondatt_outer_header_creation_to_image(&r, image);
}

static void show_outer_header_creation(const uint8_t *image, const uint8_t *from, bool has_places)
{
    struct yerondatt_outer_header_creation r = yerondatt_outer_header_creation_from_image(image);
    (void)from;
    (void)has_places;
    printf("rec=O flags=%02X", r.description);
    show_number(" teid=", r.has_teid, r.teid, 8);
    show_field(" ipv4=", r.has_ipv4_address, r.ipv4_address, 4);
    show_field(" ipv6=", r.has_ipv6_address, r.ipv6_address, 16);
    show_number(" port=", r.has_port_number, r.port_number, 4);
    show_number(" ctag=", r.has_ctag, r.ctag, 8);
    show_number(" stag=", r.has_stag, r.stag, 8);
}

static struct yerondatt_text ask_text(struct word line, const char *key, bool is_raw, bool *given)
{
    struct yerondatt_text none = {0, 0};
    struct word value;
    *given = find(line, key, &value);
    if (!*given)
        return none;
    return is_raw ? placed_text(value) : lay_text(value);
}

static struct yerondatt_list ask_list(struct word line, const char *key, bool is_raw)
{
    struct yerondatt_list none = {0, 0, 0};
    struct word value;
    if (!find(line, key, &value))
        return none;
    return is_raw ? placed_list(value) : lay_list(value);
}

static void ask_pfd_contents(struct word line, bool is_raw, uint8_t *image)
{
    struct yerondatt_pfd_contents r = {0};
    r.flags = flags_of(line);
    r.flow_description = ask_text(line, "fd=", is_raw, &r.has_flow_description);
    r.url = ask_text(line, "url=", is_raw, &r.has_url);
    r.domain_name = ask_text(line, "dn=", is_raw, &r.has_domain_name);
    r.custom_pfd_content = ask_text(line, "cp=", is_raw, &r.has_custom_pfd_content);
    r.domain_name_protocol = ask_text(line, "dnp=", is_raw, &r.has_domain_name_protocol);
    r.additional_flow_description = ask_list(line, "afd=", is_raw);
    r.additional_url = ask_list(line, "aurl=", is_raw);
    r.additional_domain_name_and_protocol = ask_list(line, "adnp=", is_raw);
    yerondatt_pfd_contents_to_image(&r, image);
}

static void show_pfd_contents(const uint8_t *image, const uint8_t *from, bool has_places)
{
    struct yerondatt_pfd_contents r = yerondatt_pfd_contents_from_image(image);
    printf("rec=P flags=%02X", r.flags);
    show_text(" fd=", r.has_flow_description, from, r.flow_description, has_places);
    show_text(" url=", r.has_url, from, r.url, has_places);
    show_text(" dn=", r.has_domain_name, from, r.domain_name, has_places);
    show_text(" cp=", r.has_custom_pfd_content, from, r.custom_pfd_content, has_places);
    show_text(" dnp=", r.has_domain_name_protocol, from, r.domain_name_protocol, has_places);
    show_list(" afd=", from, r.additional_flow_description, has_places);
    show_list(" aurl=", from, r.additional_url, has_places);
    show_list(" adnp=", from, r.additional_domain_name_and_protocol, has_places);
}

static bool is_strict_pfd_contents(const uint8_t *image)
{
    struct yerondatt_pfd_contents r = yerondatt_pfd_contents_from_image(image);
    int there = r.has_flow_description | r.has_url << 1 | r.has_domain_name << 2 | r.has_custom_pfd_content << 3
                | r.has_domain_name_protocol << 4 | (r.additional_flow_description.count != 0) << 5
                | (r.additional_url.count != 0) << 6 | (r.additional_domain_name_and_protocol.count != 0) << 7;
    return (r.flags & ~there) == 0;
}

/* Whatever is accepted. */
static bool is_strict_any(const uint8_t *image)
{
    (void)image;
    return true;
}

/* ---- the kinds as a table ---- */

struct kind {
    char letter;
    size_t size;
    size_t room; /* of the output, enough for every record that isn't refused */
    uint64_t (*read)(const uint8_t *payload, size_t payload_len, uint8_t *image, size_t image_len);
    write_function *write;
    uint64_t (*strict)(const uint8_t *payload, size_t payload_len);
    void (*ask)(struct word line, bool is_raw, uint8_t *image);
    void (*show)(const uint8_t *image, const uint8_t *from, bool has_places);
    bool (*is_strict)(const uint8_t *image);
    void (*again)(const uint8_t *image, uint8_t *to);
};

/* From an image into the struct, and from there into another image. */
#define AGAIN(KIND) \
    static void again_##KIND(const uint8_t *image, uint8_t *to) \
    { \
        struct yerondatt_##KIND record = yerondatt_##KIND##_from_image(image); \
        yerondatt_##KIND##_to_image(&record, to); \
    }

AGAIN(ue_ip_address)
AGAIN(f_teid)
AGAIN(fseid)
AGAIN(node_id)
AGAIN(outer_header_creation)
AGAIN(pfd_contents)

#define KIND_ROW(LETTER, SIZE, ROOM, KIND, WRITE, STRICT) \
    {LETTER, SIZE, ROOM, yerondatt_##KIND##_read, WRITE, yerondatt_##KIND##_strict, \
     ask_##KIND, show_##KIND, STRICT, again_##KIND}

static const struct kind kinds[] = {
    KIND_ROW('U', YERONDATT_UE_IP_ADDRESS_SIZE, 64, ue_ip_address, write_ue_ip_address, is_strict_any),
    KIND_ROW('F', YERONDATT_F_TEID_SIZE, 64, f_teid, write_f_teid, is_strict_f_teid),
    KIND_ROW('S', YERONDATT_FSEID_SIZE, 64, fseid, write_fseid, is_strict_fseid),
    KIND_ROW('N', YERONDATT_NODE_ID_SIZE, 65535, node_id, yerondatt_node_id_write, is_strict_any),
    KIND_ROW('O', YERONDATT_OUTER_HEADER_CREATION_SIZE, 64, outer_header_creation, write_outer_header_creation, is_strict_any),
    KIND_ROW('P', YERONDATT_PFD_CONTENTS_SIZE, 65535, pfd_contents, yerondatt_pfd_contents_write, is_strict_pfd_contents),
};

static const struct kind *kind_of(struct word line)
{
    size_t i;
    for (i = 0; i < sizeof kinds / sizeof *kinds; i++)
        if (line.len != 0 && kinds[i].letter == line.at[0])
            return &kinds[i];
    return NULL;
}

/* Lends the texts of the line, or its payload. */
static const uint8_t *lend_texts(void)
{
    uint8_t *bytes = lend(&lent_payload, texts.len, LENT_BACK);
    if (texts.len != 0)
        memcpy(bytes, texts.bytes, texts.len);
    return bytes;
}

/* Whether they are as they were lent. */
static bool is_lent(const uint8_t *bytes)
{
    return lent_guarded(&lent_payload) && (texts.len == 0 || memcmp(bytes, texts.bytes, texts.len) == 0);
}

/* ---- writing ---- */

/* Writes an image into an output of so many bytes, which is then lent_out, and says what the report has. */
static struct yerondatt_head write_once(const struct kind *kind, const uint8_t *image, const uint8_t *from, size_t from_len,
                                        size_t room)
{
    uint8_t *out = lend(&lent_out, room, LENT_BACK);
    uint8_t *report = lend(&lent_report, YERONDATT_REPORT_SIZE, LENT_BACK);
    uint8_t before[YERONDATT_PFD_CONTENTS_SIZE];
    struct yerondatt_head head;
    uint64_t answer;
    memcpy(before, image, kind->size);
    answer = kind->write(image, kind->size, from, from_len, out, room, report, YERONDATT_REPORT_SIZE);
    head = yerondatt_head_from_image(report);
    must(memcmp(before, image, kind->size) == 0 && is_lent(from), "the image or the texts are changed");
    must(answer == head.answer, "the returned number isn't that of the report");
    must(head.answer == YERONDATT_DONE || head.count == 0, "a refused write has a length");
    must(head.count <= room, "more is written than there is room for");
    must(lent_filled(out + head.count, room - head.count), "bytes of the output behind the written form are changed");
    must(lent_guarded(&lent_out) && lent_guarded(&lent_report), "bytes beside the output or the report are changed");
    return head;
}

/* The same into just the room that is needed, and into a byte less. */
static void write_at_edge(const struct kind *kind, const uint8_t *image, const uint8_t *from, size_t from_len, size_t needed)
{
    static uint8_t written[65535];
    struct yerondatt_head head;
    memcpy(written, lent_out.bytes, needed);
    head = write_once(kind, image, from, from_len, needed - 1);
    must(head.answer == YERONDATT_NO_ROOM && head.values[0] == needed, "a byte too few isn't answered 8 with the length");
    head = write_once(kind, image, from, from_len, needed);
    must(head.answer == YERONDATT_DONE && head.count == needed, "just enough room isn't enough");
    must(memcmp(written, lent_out.bytes, needed) == 0, "just enough room gives other bytes");
}

/* Writes an image, and where that is done once more at the edge of the room. */
static struct yerondatt_head write_record(const struct kind *kind, const uint8_t *image, const uint8_t *from, size_t from_len,
                                          size_t room)
{
    struct yerondatt_head head = write_once(kind, image, from, from_len, room);
    if (head.answer == YERONDATT_DONE)
        write_at_edge(kind, image, from, from_len, head.count);
    return head;
}

/* ---- a payload ---- */

/* The image of a refused payload behind its head is that of the empty record. */
static bool is_empty(const struct kind *kind, const uint8_t *image)
{
    size_t i;
    for (i = YERONDATT_HEAD_SIZE; i < kind->size; i++)
        if (image[i] != (kind->letter == 'N' && i == YERONDATT_NODE_ID_TYPE ? YERONDATT_NODE_ID_TYPE_FQDN : 0))
            return false;
    return true;
}

/* Of a Node ID the read goes by the whole first byte and the strict verdict by its low four bits; lines of the verdict tell. */
static bool has_spare_bits(const struct kind *kind, const uint8_t *payload, size_t len)
{
    return kind->letter == 'N' && len != 0 && payload[0] >> 4 != 0;
}

static struct yerondatt_head read_payload(const struct kind *kind, const uint8_t *payload, size_t len)
{
    uint8_t *image = lend(&lent_image, kind->size, LENT_BACK);
    uint64_t answer = kind->read(payload, len, image, kind->size);
    struct yerondatt_head head = yerondatt_head_from_image(image);
    bool is_strict = answer == YERONDATT_DONE && kind->is_strict(image);
    must(answer == head.answer, "the returned number isn't that of the image");
    must(lent_guarded(&lent_image), "bytes beside the image are changed");
    if (!has_spare_bits(kind, payload, len))
        must(kind->strict(payload, len) == (is_strict ? 1 : 0), "the strict verdict isn't what the record asks for");
    if (answer != YERONDATT_DONE)
        must(head.count == 0 && is_empty(kind, image), "a refused payload gives more than the empty record");
    return head;
}

/* Writes the record of the image that was read, from its struct. */
static struct yerondatt_head write_again(const struct kind *kind, const uint8_t *payload)
{
    uint8_t *again = lend(&lent_again, kind->size, LENT_BACK);
    kind->again(lent_image.bytes, again);
    must(memcmp(again + YERONDATT_HEAD_SIZE, lent_image.bytes + YERONDATT_HEAD_SIZE, kind->size - YERONDATT_HEAD_SIZE) == 0,
         "the struct, laid into an image again, gives another record");
    return write_record(kind, again, payload, texts.len, kind->room);
}

static void answer_payload(const struct kind *kind, bool is_brief)
{
    const uint8_t *payload = lend_texts();
    struct yerondatt_head head = read_payload(kind, payload, texts.len);
    struct yerondatt_head written;
    must(is_lent(payload), "the payload is changed");
    if (head.answer != YERONDATT_DONE) {
        show_refusal(head);
        return;
    }
    written = write_again(kind, payload);
    must(written.answer == YERONDATT_DONE && written.count == head.count, "the written length isn't the used count");
    printf("0 %zu ", head.count);
    if (is_brief) {
        puts("-");
        return;
    }
    show_bytes(lent_out.bytes, written.count);
    fputs(" | ", stdout);
    kind->show(lent_image.bytes, payload, true);
    putchar('\n');
}

static void answer_verdict(const struct kind *kind)
{
    const uint8_t *payload = lend_texts();
    uint64_t verdict = kind->strict(payload, texts.len);
    must(verdict <= 1, "the strict verdict is neither 1 nor 0");
    must(is_lent(payload), "the payload is changed");
    puts(verdict == 1 ? "yes" : "no");
}

/* ---- a record ---- */

/* The answer of a record, but for its fields. */
static void show_written(struct yerondatt_head head, bool is_brief)
{
    if (head.answer != YERONDATT_DONE) {
        printf("%" PRIu64 " %" PRIu64 " -", head.answer, head.values[0]);
        return;
    }
    printf("0 %zu ", head.count);
    if (is_brief)
        putchar('-');
    else
        show_bytes(lent_out.bytes, head.count);
}

static void answer_record(const struct kind *kind, struct word line, bool is_raw)
{
    uint8_t *image = lend(&lent_image, kind->size, LENT_BACK);
    struct yerondatt_head head;
    struct word room, brief;
    const uint8_t *from;
    kind->ask(line, is_raw, image);
    from = lend_texts();
    head = write_record(kind, image, from, texts.len, find(line, "room=", &room) ? decimal(room) : kind->room);
    show_written(head, find(line, "brief", &brief));
    if (!is_raw && (head.answer == YERONDATT_DONE || head.answer == YERONDATT_OUTPUT_TOO_LONG)) {
        fputs(" | ", stdout);
        kind->show(image, from, false);
    }
    putchar('\n');
}

/* ---- lines ---- */

/* A line without the `V` that asks for the strict verdict. */
static struct word without_v(struct word line)
{
    struct word rest = line;
    if (line.len != 0 && line.at[0] == 'V') {
        rest.at++;
        rest.len--;
    }
    return rest;
}

static void answer_line(struct word line)
{
    const struct kind *kind = kind_of(without_v(line));
    struct word rest = line;
    struct word head = cut(&rest, ' ');
    struct word brief;
    texts.len = 0;
    if (kind == NULL) {
        must(false, "no such kind");
    } else if (head.len == 2 && line.at[0] == 'V') {
        lay_text(rest);
        answer_verdict(kind);
    } else if (head.len == 1 && memchr(line.at, '=', line.len) == NULL) {
        lay_text(rest);
        answer_payload(kind, false);
    } else if (head.len == 1) {
        answer_record(kind, rest, false);
    } else if (is_word(head, "N.raw") || is_word(head, "P.raw")) {
        lay_slice(rest);
        answer_record(kind, rest, true);
    } else if (is_word(head, "N.read") || is_word(head, "P.read")) {
        lay_slice(rest);
        answer_payload(kind, find(rest, "brief", &brief));
    } else {
        must(false, "no such line");
    }
}

static struct word input(void)
{
    struct word all = {NULL, 0};
    char *bytes = NULL;
    size_t room = 1 << 16;
    size_t got = 1;
    while (got != 0) {
        room *= 2;
        bytes = realloc(bytes, room);
        if (bytes == NULL) {
            perror("replay");
            exit(2);
        }
        got = fread(bytes + all.len, 1, room - all.len, stdin);
        all.len += got;
    }
    all.at = bytes;
    return all;
}

int main(void)
{
    struct word all = input();
    struct word rest = all;
    if (yerondatt_layout_version() != YERONDATT_LAYOUT_VERSION) {
        fputs("replay: the archive has another layout than the header\n", stderr);
        return 1;
    }
    while (rest.len != 0) {
        line_number++;
        answer_line(cut(&rest, '\n'));
    }
    free((void *)all.at);
    free(texts.bytes);
    return failures == 0 ? 0 : 1;
}
