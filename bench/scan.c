/* Lists the frames of a recorded stream as `beep show` does: the baseline of bench/show.py.
 *
 * It reads standard input 4,096 octets at a time and writes its lines once a read. Headers are strict: one
 * space, no leading zeros, every number in its range (RFC 3080, section 2.2.1; RFC 3081, section 3.1). */
#include <stdint.h>
#include <stdio.h>
#include <string.h>
#include <unistd.h>

#define PIECE 4096                /* octets of one read */
#define MAX_HEADER 62             /* octets of the longest header, with its CRLF */
#define MAX_SIZE 65536u           /* octets of payload of one frame */
#define MAX_OCTETS 1073741824u    /* octets of the whole input */
#define MAX_NUMBER 2147483647u
#define MAX_SEQNO 4294967295u

/* A keyword with its space, and its fields: a number, the size, a number modulo 2^32, or the flag. */
static const struct kind { char name[5]; const char *fields; } kinds[] = {
    {"MSG ", "nnfqs"}, {"RPY ", "nnfqs"}, {"ERR ", "nnfqs"},
    {"ANS ", "nnfqsn"}, {"NUL ", "nnfqs"}, {"SEQ ", "nqn"},
};
#define KINDS (sizeof kinds / sizeof kinds[0])

enum found { PARTIAL, WHOLE, BROKEN };    /* the octets fit so far, are a whole header, or can't go on */

struct header {
    const unsigned char *at, *end;    /* where it is read; after BROKEN, the octet that broke it */
    uint32_t size;                    /* octets of payload */
    int is_seq;
};

struct scan {
    uint32_t payload_left, trailer_left;
    unsigned char header[MAX_HEADER];    /* the header of the frame under way */
    size_t header_len;
    uint64_t octets, whole, frames;      /* octets looked at; whole frames, and their octets */
    char out[2 * PIECE];                 /* the lines of one read, none longer than its frame */
    size_t out_len;
    const char *broken;                  /* the broken rule; its place is octets - 1 */
};

static enum found octet(struct header *h, unsigned char wanted)
{
    if (h->at == h->end)
        return PARTIAL;
    if (*h->at != wanted)
        return BROKEN;
    h->at++;
    return WHOLE;
}

static enum found number(struct header *h, uint64_t max, uint64_t *value)
{
    const unsigned char *first = h->at;
    for (*value = 0; h->at < h->end && *h->at >= '0' && *h->at <= '9'; h->at++) {
        if (*value == 0 && h->at > first)
            return BROKEN;
        *value = *value * 10 + (uint64_t)(*h->at - '0');
        if (*value > max)
            return BROKEN;
    }
    if (h->at == h->end)
        return PARTIAL;
    return h->at == first ? BROKEN : WHOLE;
}

static enum found field(struct header *h, char form)
{
    uint64_t value;
    enum found found;
    if (form == 'f')
        return octet(h, h->at < h->end && *h->at == '*' ? '*' : '.');
    found = number(h, form == 'q' ? MAX_SEQNO : MAX_NUMBER, &value);
    if (form == 's')
        h->size = (uint32_t)value;
    return found;
}

/* Reads a header from its first octet. */
static enum found read_header(struct header *h)
{
    const struct kind *kind = kinds;
    enum found found = WHOLE;
    while (kind < kinds + KINDS - 1 && *h->at != kind->name[0])
        kind++;
    for (const char *name = kind->name; *name && found == WHOLE; name++)
        found = octet(h, (unsigned char)*name);
    for (const char *form = kind->fields; *form && found == WHOLE; form++) {
        found = field(h, *form);
        if (found == WHOLE)
            found = octet(h, form[1] ? ' ' : '\r');
    }
    h->is_seq = kind == kinds + KINDS - 1;
    return found == WHOLE ? octet(h, '\n') : found;
}

static void frame_ends(struct scan *s)
{
    size_t len = s->header_len - 2;
    memcpy(s->out + s->out_len, s->header, len);
    s->out[s->out_len + len] = '\n';
    s->out_len += len + 1;
    s->header_len = 0;
    s->frames++;
    s->whole = s->octets;
}

/* Each of these three looks at some octets of a piece and answers how many. */
static size_t header_octets(struct scan *s, const unsigned char *bytes, size_t len)
{
    size_t had = s->header_len;
    size_t more = len < MAX_HEADER - had ? len : MAX_HEADER - had;
    memcpy(s->header + had, bytes, more);
    struct header h = {s->header, s->header + had + more, 0, 0};
    enum found found = read_header(&h);
    s->header_len = (size_t)(h.at - s->header);
    if (found == BROKEN) {
        s->broken = "Header";
        return s->header_len + 1 - had;
    }
    if (found == PARTIAL)
        return more;
    if (h.size > MAX_SIZE)
        s->broken = "Size";
    s->payload_left = h.size;
    s->trailer_left = h.is_seq ? 0 : 5;
    return s->header_len - had;
}

static size_t payload_octets(struct scan *s, size_t len)
{
    size_t used = s->payload_left < len ? s->payload_left : len;
    s->payload_left -= (uint32_t)used;
    return used;
}

static size_t trailer_octet(struct scan *s, unsigned char c)
{
    if (c != "\n\rDNE"[--s->trailer_left])
        s->broken = "Trailer";
    return 1;
}

/* Whether the header under way is whole. */
static int has_header(const struct scan *s)
{
    return s->header_len > 0 && s->header[s->header_len - 1] == '\n';
}

static void look_at(struct scan *s, const unsigned char *bytes, size_t len)
{
    for (size_t i = 0, used; i < len && !s->broken; i += used) {
        if (!has_header(s))
            used = header_octets(s, bytes + i, len - i);
        else if (s->payload_left > 0)
            used = payload_octets(s, len - i);
        else
            used = trailer_octet(s, bytes[i]);
        s->octets += used;
        if (has_header(s) && s->payload_left == 0 && s->trailer_left == 0 && !s->broken)
            frame_ends(s);
    }
}

static int write_lines(struct scan *s)
{
    for (size_t at = 0; at < s->out_len; ) {
        ssize_t n = write(1, s->out + at, s->out_len - at);
        if (n < 0)
            return -1;
        at += (size_t)n;
    }
    s->out_len = 0;
    return 0;
}

int main(void)
{
    static struct scan s;
    static unsigned char bytes[PIECE];
    char last[80];
    ssize_t n = 1;
    int status;
    while (n > 0 && !s.broken && s.octets < MAX_OCTETS) {
        uint64_t room = MAX_OCTETS - s.octets;
        n = read(0, bytes, room < PIECE ? (size_t)room : PIECE);
        look_at(&s, bytes, n > 0 ? (size_t)n : 0);
        if (write_lines(&s) < 0)
            return 5;
    }
    if (s.broken) {
        status = 3;
        snprintf(last, sizeof last, "! broken %s %ju\n", s.broken, (uintmax_t)(s.octets - 1));
    } else if (n < 0) {
        status = 4;
        snprintf(last, sizeof last, "! read fault\n");
    } else if (n > 0) {
        status = 11;
        snprintf(last, sizeof last, "! spent %ju\n", (uintmax_t)s.octets);
    } else if (s.octets > s.whole) {
        status = 9;
        snprintf(last, sizeof last, "! cut %ju\n", (uintmax_t)(s.octets - s.whole));
    } else {
        status = 0;
        snprintf(last, sizeof last, "frames %ju octets %ju\n", (uintmax_t)s.frames, (uintmax_t)s.whole);
    }
    s.out_len = strlen(last);
    memcpy(s.out, last, s.out_len);
    return write_lines(&s) < 0 ? 5 : status;
}
