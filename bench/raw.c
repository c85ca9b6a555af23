/* A sender and a collector of lines by RAW over BEEP (RFC 3195, section 3), with the frames and the exchanges of `beep send`
 * and `beep listen`: the same windows, a SEQ once half a window has opened, one write for all that is gathered, and for MOST
 * octets of it at the latest. Nothing of what a peer sends is checked.
 * usage: raw listen PORT WINDOW | raw send PORT PIECE MOST */
#include <arpa/inet.h>
#include <netinet/tcp.h>
#include <stdio.h>
#include <stdlib.h>
#include <string.h>
#include <sys/socket.h>
#include <unistd.h>

#define BUFFER 65536
#define READ BUFFER
#define MIME "Content-Type: application/beep+xml\r\n\r\n"
#define PROFILE "<profile uri='http://xml.resource.org/profiles/syslog/RAW' />"

/* What is gathered to be written, what was read and not used, and the lines that a collector has. */
static char out[BUFFER + 8192], in[2 * BUFFER], lines[2 * BUFFER];
static size_t gathered, held, kept;

/* How many octets went out on channel zero. */
static unsigned zero_seq;

static void write_all(int to, const char *from, size_t count)
{
    for (ssize_t n; count > 0; from += n, count -= n)
        if ((n = write(to, from, count)) <= 0)
            exit(4);
}

static void flush(int link)
{
    write_all(link, out, gathered);
    gathered = 0;
}

static void put(const char *from, size_t count)
{
    memcpy(out + gathered, from, count);
    gathered += count;
}

static void put_text(const char *text)
{
    put(text, strlen(text));
}

static void put_number(unsigned value, char after)
{
    char digits[12];
    int at = 12;
    digits[--at] = after;
    do
        digits[--at] = '0' + value % 10;
    while (value /= 10);
    put(digits + at, 12 - at);
}

static void put_zero(const char *kind, unsigned number, const char *element)
{
    char payload[512];
    int size = snprintf(payload, sizeof payload, MIME "%s\r\n", element);
    gathered += snprintf(out + gathered, 128, "%s 0 %u . %u %d\r\n", kind, number, zero_seq, size);
    put(payload, size);
    put_text("END\r\n");
    zero_seq += size;
}

static unsigned number(const char **at)
{
    unsigned value = 0;
    while (**at >= '0' && **at <= '9')
        value = 10 * value + (*(*at)++ - '0');
    ++*at;
    return value;
}

/* A frame or a SEQ that was read: for a SEQ `seq` and `size` are what it acknowledges and its window. */
struct frame {
    char kind;
    int channel, ends;
    unsigned request, seq, size;
    const char *payload;
};

/* The next whole frame from `at` on, and where it ends, or 0. */
static size_t next(size_t at, struct frame *frame)
{
    const char *from = in + at, *line = memchr(from, '\n', held - at);
    if (!line)
        return 0;
    frame->kind = from[0] == 'S' ? 'Q' : from[0];
    from += 4;
    frame->channel = number(&from);
    frame->payload = line + 1;
    if (frame->kind == 'Q') {
        frame->seq = number(&from);
        frame->size = number(&from);
        return line + 1 - in;
    }
    frame->request = number(&from);
    frame->ends = *from == '.';
    from += 2;
    frame->seq = number(&from);
    frame->size = number(&from);
    size_t end = line + 1 - in + frame->size + 5;
    return end <= held ? end : 0;
}

/* Reads once, after what is held, as much as `beep` does at most. */
static void read_once(int link)
{
    ssize_t count = read(link, in + held, READ);
    if (count <= 0)
        exit(count < 0 ? 5 : 6);
    held += count;
}

static void used(size_t at)
{
    memmove(in, in + at, held - at);
    held -= at;
}

/* ---- the collector */

static unsigned received, edge = 4096;
static int is_live;

/* The octets of the line end before an entry that are still to come. */
static unsigned ahead = 2;

/* Whether an answer is under way: its last octets may be the line end that isn't written. */
static int under_way;

static void take_answer(const struct frame *frame)
{
    unsigned skip = ahead < frame->size ? ahead : frame->size;
    ahead -= skip;
    memcpy(lines + kept, frame->payload + skip, frame->size - skip);
    kept += frame->size - skip;
    under_way = !frame->ends;
    if (frame->ends) {
        lines[kept - 2] = '\n';
        kept--;
        ahead = 2;
    }
    received += frame->size;
}

/* Does what a frame calls for; 0 where it was the last. */
static int hear(const struct frame *frame)
{
    if (frame->kind == 'A')
        take_answer(frame);
    else if (frame->kind == 'M' && frame->request == 1) {
        is_live = 1;
        put_zero("RPY", 1, PROFILE);
        put_text("MSG 1 0 . 0 9\r\n\r\nready\r\nEND\r\n");
    } else if (frame->kind == 'M') {
        put_zero("RPY", frame->request, "<ok />");
        return frame->request == 2;
    }
    return 1;
}

static void collect(int link, unsigned window)
{
    struct frame frame;
    int on = 1;
    put_zero("RPY", 0, "<greeting>" PROFILE "</greeting>");
    flush(link);
    while (on) {
        size_t at = 0, end;
        read_once(link);
        for (; (end = next(at, &frame)); at = end)
            on = hear(&frame);
        used(at);
        size_t stays = !under_way ? 0 : kept < 2 ? kept : 2;
        write_all(1, lines, kept - stays);
        memmove(lines, lines + kept - stays, stays);
        kept = stays;
        if (is_live && received + window - edge >= window / 2) {
            edge = received + window;
            put_text("SEQ 1 ");
            put_number(received, ' ');
            put_number(window, '\r');
            put_text("\n");
        }
        if (gathered)
            flush(link);
    }
}

/* ---- the sender */

static char *input;
static size_t size, at_line, most;
static unsigned sent, open_to = 4096, answer;

/* Puts octets of the body of a line, from one on: a line end, the line and a line end. */
static void put_body(const char *line, unsigned length, unsigned from, unsigned count)
{
    for (unsigned i = from; i < from + count;) {
        if (i < 2 || i >= length + 2) {
            put_text((i < 2 ? i : i - length - 2) ? "\n" : "\r");
            i++;
            continue;
        }
        unsigned part = length + 2 - i < from + count - i ? length + 2 - i : from + count - i;
        put(line + i - 2, part);
        i += part;
    }
}

/* The next frame of the line under way, of which `done` octets went, as far as the window allows; 0 where none goes. */
static int put_answer(unsigned piece, unsigned *done)
{
    const char *line = input + at_line, *end = memchr(line, '\n', size - at_line);
    unsigned length = end - line, count = length + 4 - *done, room = open_to - sent;
    if (room == 0)
        return 0;
    count = count < piece ? count : piece;
    count = count < room ? count : room;
    int ends = *done + count == length + 4;
    put_text("ANS 1 0 ");
    put_text(ends ? ". " : "* ");
    put_number(sent, ' ');
    put_number(count, ' ');
    put_number(answer, '\r');
    put_text("\n");
    put_body(line, length, *done, count);
    put_text("END\r\n");
    sent += count;
    *done = ends ? 0 : *done + count;
    if (ends) {
        at_line = end + 1 - input;
        answer++;
    }
    return 1;
}

/* Says all that the window allows; 0 once the lines and their end are said. */
static int say(int link, unsigned piece, unsigned *done)
{
    while (at_line < size && put_answer(piece, done))
        if (gathered >= most)
            flush(link);
    if (at_line == size) {
        put_text("NUL 1 0 . ");
        put_number(sent, ' ');
        put_text("0\r\nEND\r\n");
        put_zero("MSG", 2, "<close number='1' code='200' />");
    }
    flush(link);
    return at_line < size;
}

static void read_input(void)
{
    size_t room = 1 << 25;
    ssize_t count;
    input = malloc(room);
    while ((count = read(0, input + size, room - size)) > 0)
        size += count;
}

static void deliver(int link, unsigned piece)
{
    struct frame frame;
    int ready = 0, on = 1;
    unsigned done = 0;
    read_input();
    put_zero("RPY", 0, "<greeting />");
    flush(link);
    for (;;) {
        size_t at = 0, end;
        read_once(link);
        for (; (end = next(at, &frame)); at = end) {
            if (frame.kind == 'Q' && frame.channel == 1)
                open_to = frame.seq + frame.size;
            else if (frame.kind == 'M')
                ready = 1;
            else if (frame.kind == 'R' && frame.request == 0)
                put_zero("MSG", 1, "<start number='1'>" PROFILE "</start>");
            else if (frame.kind == 'R' && frame.request == 2)
                put_zero("MSG", 3, "<close number='0' code='200' />");
            else if (frame.kind == 'R' && frame.request == 3)
                return;
        }
        used(at);
        if (ready && on)
            on = say(link, piece, &done);
        if (gathered)
            flush(link);
    }
}

int main(int argc, char **argv)
{
    struct sockaddr_in address = {.sin_family = AF_INET, .sin_addr.s_addr = htonl(INADDR_LOOPBACK)};
    int link = socket(AF_INET, SOCK_STREAM, 0), yes = 1;
    int sends = argc == 5 && strcmp(argv[1], "send") == 0;
    if ((argc != 4 && !sends) || link < 0)
        return 2;
    address.sin_port = htons(atoi(argv[2]));
    if (sends) {
        most = atoi(argv[4]);
        if (connect(link, (struct sockaddr *)&address, sizeof address))
            return 3;
        setsockopt(link, IPPROTO_TCP, TCP_NODELAY, &yes, sizeof yes);
        deliver(link, atoi(argv[3]));
        return 0;
    }
    setsockopt(link, SOL_SOCKET, SO_REUSEADDR, &yes, sizeof yes);
    if (bind(link, (struct sockaddr *)&address, sizeof address) || listen(link, 1))
        return 3;
    link = accept(link, NULL, NULL);
    setsockopt(link, IPPROTO_TCP, TCP_NODELAY, &yes, sizeof yes);
    collect(link, atoi(argv[3]));
    return 0;
}
