/*
 * edges
 * Lent memory at its edges, for each kind: images, reports and outputs a byte short, just long enough and longer than needed,
 * payloads and outputs of no bytes, NULL too, at both ends of memory that nobody may touch; also texts that end with the
 * payload and aren't UTF-8, and Node IDs with a spare bit set. Prints what fails, then one line.
 */
#define _DEFAULT_SOURCE
#include "kinds.h"
#include "lent.h"

#define BEHIND 5 /* bytes that are lent beyond what is needed */

static struct lent lent_payload, lent_image, lent_out, lent_report;
static size_t tests, failures;

/* ---- the kinds, each with a payload that is all used, and the texts of its record in that payload ---- */

struct kind {
    const char *name;
    size_t size;
    uint64_t (*read)(const uint8_t *payload, size_t payload_len, uint8_t *image, size_t image_len);
    write_function *write;
    uint64_t (*strict)(const uint8_t *payload, size_t payload_len);
    size_t least; /* the expected length that the empty payload is refused with */
    size_t len;
    const char *payload;
};

#define IPV4 "\xC0\x00\x02\x01"
#define IPV6 "\x20\x01\x0D\xB8\0\0\0\0\0\0\0\0\0\0\0\x01"
#define KIND_ROW(KIND, SIZE, WRITE, LEAST, PAYLOAD) \
    {#KIND, SIZE, yerondatt_##KIND##_read, WRITE, yerondatt_##KIND##_strict, LEAST, sizeof PAYLOAD - 1, PAYLOAD}

static const struct kind kinds[] = {
    KIND_ROW(ue_ip_address, YERONDATT_UE_IP_ADDRESS_SIZE, write_ue_ip_address, 1, "\x0B" IPV4 IPV6 "\x04"),
    KIND_ROW(f_teid, YERONDATT_F_TEID_SIZE, write_f_teid, 1, "\x03\x01\x02\x03\x04" IPV4 IPV6),
    KIND_ROW(fseid, YERONDATT_FSEID_SIZE, write_fseid, 9, "\x03\x01\x02\x03\x04\x05\x06\x07\x08" IPV4 IPV6),
    KIND_ROW(node_id, YERONDATT_NODE_ID_SIZE, yerondatt_node_id_write, 1, "\x02upf-7.example"),
    KIND_ROW(outer_header_creation, YERONDATT_OUTER_HEADER_CREATION_SIZE, write_outer_header_creation, 2,
             "\xFF\x00\x01\x02\x03\x04" IPV4 IPV6 "\x08\x68\x01\x02\x03\x04\x05\x06"),
    KIND_ROW(pfd_contents, YERONDATT_PFD_CONTENTS_SIZE, yerondatt_pfd_contents_write, 2,
             "\xFF\x00\0\x01" "a\0\x01" "b\0\x01" "c\0\x01" "d\0\x01" "e\0\x01" "f\0\x02" "gh\0\x01" "i\0\x00"),
};

/* ---- what a test sees ---- */

static const struct kind *kind;
static enum lent_edge edge;

static void must(bool is_so, const char *what)
{
    tests++;
    if (is_so)
        return;
    failures++;
    printf("%s, %s: %s\n", kind->name, edge == LENT_FRONT ? "behind a page" : "before a page", what);
}

static bool all_guarded(void)
{
    return lent_guarded(&lent_payload) && lent_guarded(&lent_image) && lent_guarded(&lent_out) && lent_guarded(&lent_report);
}

static void lend_payload(size_t len)
{
    memcpy(lend(&lent_payload, len, edge), kind->payload, len);
}

static bool is_payload(void)
{
    return memcmp(lent_payload.bytes, kind->payload, lent_payload.len) == 0;
}

/* Reads the payload that is lent into an image of so many bytes. */
static uint64_t read_into(size_t image_len)
{
    uint8_t *image = lend(&lent_image, image_len, edge);
    return kind->read(lent_payload.bytes, lent_payload.len, image, image_len);
}

/* The record of the kind's payload, in an image of so many bytes. */
static void lend_record(size_t image_len)
{
    static uint8_t image[YERONDATT_PFD_CONTENTS_SIZE + BEHIND];
    lend_payload(kind->len);
    memset(image, 0, sizeof image);
    kind->read(lent_payload.bytes, lent_payload.len, image, kind->size);
    memcpy(lend(&lent_image, image_len, edge), image, image_len);
}

static uint64_t write_into(size_t out_len, size_t report_len)
{
    uint8_t *out = lend(&lent_out, out_len, edge);
    uint8_t *report = lend(&lent_report, report_len, edge);
    return kind->write(lent_image.bytes, lent_image.len, lent_payload.bytes, lent_payload.len, out, out_len, report, report_len);
}

/* Whether a report, or the head of an image, has these numbers, and zeros for the two values behind the first. */
static bool has(const struct lent *m, uint64_t answer, uint64_t value, size_t count)
{
    struct yerondatt_head head = yerondatt_head_from_image(m->bytes);
    return head.answer == answer && head.values[0] == value && head.values[1] == 0 && head.values[2] == 0
           && head.count == count;
}

/* ---- the tests ---- */

static void short_images_are_not_read_into(void)
{
    size_t len;
    lend_payload(kind->len);
    for (len = 0; len < kind->size; len++) {
        must(read_into(len) == YERONDATT_NO_ROOM, "reading into a short image isn't answered 8");
        must(lent_filled(lent_image.bytes, len), "a short image is changed");
        must(is_payload() && all_guarded(), "reading into a short image changes other memory");
    }
}

static void images_are_read_into(size_t behind)
{
    lend_payload(kind->len);
    must(read_into(kind->size + behind) == YERONDATT_DONE, "the payload isn't accepted");
    must(has(&lent_image, YERONDATT_DONE, 0, kind->len), "the head isn't that of a payload that is all used");
    must(lent_filled(lent_image.bytes + kind->size, behind), "bytes behind the image are changed");
    must(is_payload() && all_guarded(), "reading changes other memory");
}

/* Each beginning of the payload stands before memory that nobody may touch: no reader looks further. */
static void beginnings_are_read(void)
{
    size_t len;
    for (len = 0; len < kind->len; len++) {
        lend_payload(len);
        read_into(kind->size);
        must(is_payload() && all_guarded(), "reading a beginning of the payload changes other memory");
        must(yerondatt_head_from_image(lent_image.bytes).count <= len, "more is used of a payload than it has");
    }
}

static void nothing_is_read(const uint8_t *payload)
{
    struct yerondatt_head head;
    uint8_t *image = lend(&lent_image, kind->size, edge);
    must(kind->read(payload, 0, image, kind->size) == YERONDATT_SHORT, "the empty payload isn't answered 1");
    head = yerondatt_head_from_image(image);
    must(head.answer == YERONDATT_SHORT && head.values[0] == YERONDATT_FIELD_WHOLE && head.values[1] == kind->least
             && head.values[2] == 0 && head.count == 0,
         "the values of the empty payload's answer are others");
    must(kind->strict(payload, 0) == 0, "the strict verdict on the empty payload is yes");
    must(all_guarded(), "reading the empty payload changes other memory");
}

/* Neither output nor report is changed. */
static void nothing_is_written(const char *what)
{
    must(lent_filled(lent_out.bytes, lent_out.len), what);
    must(lent_filled(lent_report.bytes, lent_report.len), what);
    must(is_payload() && all_guarded(), what);
}

static void short_images_are_not_written(void)
{
    size_t len;
    for (len = 0; len < kind->size; len++) {
        lend_record(len);
        must(write_into(kind->len, YERONDATT_REPORT_SIZE) == YERONDATT_NO_ROOM, "writing a short image isn't answered 8");
        nothing_is_written("writing a short image changes memory");
    }
}

static void short_reports_are_not_written(void)
{
    size_t len;
    lend_record(kind->size);
    for (len = 0; len < YERONDATT_REPORT_SIZE; len++) {
        must(write_into(kind->len, len) == YERONDATT_NO_ROOM, "a short report isn't answered 8");
        nothing_is_written("writing with a short report changes memory");
    }
}

static void short_outputs_are_not_written(void)
{
    size_t len;
    lend_record(kind->size);
    for (len = 0; len < kind->len; len++) {
        must(write_into(len, YERONDATT_REPORT_SIZE + BEHIND) == YERONDATT_NO_ROOM, "a short output isn't answered 8");
        must(has(&lent_report, YERONDATT_NO_ROOM, kind->len, 0), "the report of a short output lacks the needed length");
        must(lent_filled(lent_out.bytes, len), "a short output is changed");
        must(lent_filled(lent_report.bytes + YERONDATT_REPORT_SIZE, BEHIND), "bytes behind a report are changed");
        must(is_payload() && all_guarded(), "writing into a short output changes other memory");
    }
}

static void outputs_are_written(size_t behind)
{
    lend_record(kind->size + behind);
    must(write_into(kind->len + behind, YERONDATT_REPORT_SIZE + behind) == YERONDATT_DONE, "the record isn't written");
    must(has(&lent_report, YERONDATT_DONE, 0, kind->len), "the report isn't that of the payload");
    must(memcmp(lent_out.bytes, kind->payload, kind->len) == 0, "the written form isn't the payload");
    must(lent_filled(lent_out.bytes + kind->len, behind), "bytes behind the written form are changed");
    must(lent_filled(lent_report.bytes + YERONDATT_REPORT_SIZE, behind), "bytes behind the report are changed");
    must(is_payload() && all_guarded(), "writing changes other memory");
}

/* The head of an image has no part in writing. */
static void heads_are_not_looked_at(void)
{
    lend_record(kind->size);
    memset(lent_image.bytes, 0xFF, YERONDATT_HEAD_SIZE);
    must(write_into(kind->len, YERONDATT_REPORT_SIZE) == YERONDATT_DONE, "an image with another head isn't written");
    must(memcmp(lent_out.bytes, kind->payload, kind->len) == 0, "an image with another head is written otherwise");
}

/* A slice of no bytes may be NULL, in each of its places. */
static void nothing_may_be_null(void)
{
    uint8_t *report = lend(&lent_report, YERONDATT_REPORT_SIZE, edge);
    lend_record(kind->size);
    must(kind->read(lent_payload.bytes, lent_payload.len, NULL, 0) == YERONDATT_NO_ROOM, "an image at NULL isn't answered 8");
    must(kind->write(NULL, 0, NULL, 0, NULL, 0, NULL, 0) == YERONDATT_NO_ROOM, "a write from NULL isn't answered 8");
    must(kind->write(lent_image.bytes, lent_image.len, lent_payload.bytes, lent_payload.len, NULL, 0, report, YERONDATT_REPORT_SIZE)
             == YERONDATT_NO_ROOM,
         "an output at NULL isn't answered 8");
    must(has(&lent_report, YERONDATT_NO_ROOM, kind->len, 0), "the report of an output at NULL lacks the needed length");
    memset(lent_image.bytes, 0, lent_image.len);
    kind->write(lent_image.bytes, lent_image.len, NULL, 0, NULL, 0, report, YERONDATT_REPORT_SIZE);
    must(is_payload() && all_guarded(), "slices at NULL change other memory");
}

static void test_kind(void)
{
    lend_record(kind->size);
    write_into(kind->len, YERONDATT_REPORT_SIZE);
    short_images_are_not_read_into();
    images_are_read_into(0);
    images_are_read_into(BEHIND);
    beginnings_are_read();
    lend_payload(0);
    nothing_is_read(lent_payload.bytes);
    nothing_is_read(NULL);
    nothing_may_be_null();
    short_images_are_not_written();
    short_reports_are_not_written();
    short_outputs_are_not_written();
    outputs_are_written(0);
    outputs_are_written(BEHIND);
    heads_are_not_looked_at();
}

/* ---- texts that aren't UTF-8, at the end of the payload ---- */

struct broken {
    size_t len;
    const char *payload;
    uint64_t place;
    uint64_t bad;
};

#define BROKEN(PAYLOAD, PLACE, BAD) {sizeof PAYLOAD - 1, PAYLOAD, PLACE, BAD}

static const struct broken broken_names[] = {
    BROKEN("\x02" "a\xC3", 2, 0),
    BROKEN("\x02\xE1\x80", 1, 0),
    BROKEN("\x02\xF0\x90\x80", 1, 0),
    BROKEN("\x02" "a\xFF", 2, 1),
    BROKEN("\x02\xED\xA0", 1, 1),
    BROKEN("\x02\xF0\x8F", 1, 1),
    BROKEN("\x02\xE1\x80" "A", 1, 2),
    BROKEN("\x02\xF0\x90" "A", 1, 2),
    BROKEN("\x02\xF1\x80\x80" "A", 1, 3),
};

/* The text of the last row ends by its own length, and another one is behind it. */
static const struct broken broken_texts[] = {
    BROKEN("\x01\0\0\x01\xC3", 4, 0),
    BROKEN("\x01\0\0\x03\xF0\x90\x80", 4, 0),
    BROKEN("\x01\0\0\x02" "a\xFF", 5, 1),
    BROKEN("\x01\0\0\x03\xE1\x80" "A", 4, 2),
    BROKEN("\x01\0\0\x04\xF1\x80\x80" "A", 4, 3),
    BROKEN("\x03\0\0\x01\xC3\0\x01" "a", 4, 0),
};

/*
 * What is behind the payload has no part in it, neither a page that nobody may touch nor the guard bytes: these could go on
 * with a character that the text was cut in.
 */
static void broken_is_told(const struct broken *rows, size_t count)
{
    struct yerondatt_head head;
    size_t i;
    for (i = 0; i < count; i++) {
        memcpy(lend(&lent_payload, rows[i].len, edge), rows[i].payload, rows[i].len);
        must(read_into(kind->size) == YERONDATT_NOT_UTF8, "a text that isn't UTF-8 isn't answered 4");
        head = yerondatt_head_from_image(lent_image.bytes);
        must(head.answer == YERONDATT_NOT_UTF8 && head.values[0] == rows[i].place && head.values[1] == rows[i].bad
                 && head.values[2] == 0 && head.count == 0,
             "the values of a text that isn't UTF-8 are others");
        must(kind->strict(lent_payload.bytes, lent_payload.len) == 0, "the strict verdict on such a text is yes");
        must(memcmp(lent_payload.bytes, rows[i].payload, rows[i].len) == 0 && all_guarded(),
             "reading such a text changes other memory");
    }
}

/* Of a Node ID the high four bits of the first byte are spare: the read refuses it where one is set, the verdict passes over it. */
static void test_spare_bits(void)
{
    static const struct {
        const char *payload;
        size_t len;
        uint64_t verdict;
    } rows[] = {
        {"\x10" IPV4, 5, 1},
        {"\xF0" IPV4, 5, 1},
        {"\x10\xC0\x00\x02", 4, 0},
        {"\x11" IPV6, 17, 1},
        {"\x11" IPV6, 16, 0},
        {"\xF2", 1, 1},
        {"\xF2upf", 4, 1},
        {"\xF2" "a\xC3", 3, 0},
        {"\xF3", 1, 0},
    };
    size_t i;
    for (i = 0; i < sizeof rows / sizeof *rows; i++) {
        memcpy(lend(&lent_payload, rows[i].len, edge), rows[i].payload, rows[i].len);
        must(read_into(kind->size) == YERONDATT_NODE_TYPE, "a Node ID with a spare bit set isn't answered 3");
        must(kind->strict(lent_payload.bytes, lent_payload.len) == rows[i].verdict,
             "the strict verdict on a Node ID with a spare bit set is another");
        must(memcmp(lent_payload.bytes, rows[i].payload, rows[i].len) == 0 && all_guarded(),
             "judging a Node ID with a spare bit set changes memory");
    }
}

static void test_own(void)
{
    if (kind->read == yerondatt_node_id_read) {
        broken_is_told(broken_names, sizeof broken_names / sizeof *broken_names);
        test_spare_bits();
    }
    if (kind->read == yerondatt_pfd_contents_read)
        broken_is_told(broken_texts, sizeof broken_texts / sizeof *broken_texts);
}

int main(void)
{
    size_t i;
    for (i = 0; i < sizeof kinds / sizeof *kinds; i++) {
        kind = &kinds[i];
        edge = LENT_FRONT;
        test_kind();
        test_own();
        edge = LENT_BACK;
        test_kind();
        test_own();
    }
    printf("edges: %zu tests, %zu failures\n", tests, failures);
    return failures == 0 ? 0 : 1;
}
