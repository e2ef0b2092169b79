/* The firewall of bench/throughput by hand, in one thread: the distance to it is what the proved program costs.
 *
 *     floor OUT INSIDE OUTSIDE INDICES LIFETIME
 *
 * It reads two captures as streams, and writes what `maestro run` writes for that function: OUT.0.pcap, OUT.1.pcap,
 * OUT.journal and OUT.state, byte for byte. A flow goes out by the inside port and its answers come in by the other; a
 * flow that wasn't used for LIFETIME nanoseconds is forgotten. Captures are classic pcap over Ethernet in any of the
 * four forms; a torn record ends one.
 */
#include "by_hand.h"

static const uint64_t GREATEST_TIME = 4294967295999999999u;

/* Captures, each with the next whole record of it in its buffer. */

struct capture {
    int file, is_big, is_micro, has_next;
    size_t at, end;
    uint64_t time;
    uint32_t seq, captured, original;
    uint8_t bytes[PIECE + RECORD + MOST_CAPTURED];
};

/* Whether so many bytes stand in the buffer, from its first unread one. */
static int has(struct capture *from, size_t count)
{
    while (from->end - from->at < count) {
        memmove(from->bytes, from->bytes + from->at, from->end - from->at);
        from->end -= from->at;
        from->at = 0;
        ssize_t more = read(from->file, from->bytes + from->end, PIECE);
        if (more < 0)
            stop("a read failed");
        if (more == 0)
            return 0;
        from->end += (size_t)more;
    }
    return 1;
}

static uint32_t number(const struct capture *from, size_t offset)
{
    const uint8_t *at = from->bytes + from->at + offset;
    return from->is_big ? big(at) : little(at);
}

/* Goes to the next record. Times of a capture never fall. */
static void next(struct capture *from)
{
    from->has_next = 0;
    if (!has(from, RECORD))
        return;
    uint64_t fraction = number(from, 4);
    uint64_t time = number(from, 0) * UINT64_C(1000000000) + (from->is_micro ? fraction * 1000 : fraction);
    if (time > GREATEST_TIME)
        time = GREATEST_TIME;
    from->captured = number(from, 8);
    from->original = number(from, 12);
    if (from->captured > MOST_CAPTURED || !has(from, RECORD + (size_t)from->captured))
        return;
    if (time > from->time)
        from->time = time;
    from->has_next = 1;
}

static struct capture *capture(const char *name)
{
    struct capture *from = room(sizeof *from);
    from->file = open(name, O_RDONLY);
    if (from->file < 0)
        stop(name);
    if (!has(from, HEADER))
        stop("no capture");
    uint32_t magic = big(from->bytes);
    from->is_big = magic == 0xa1b2c3d4 || magic == 0xa1b23c4d;
    from->is_micro = magic == 0xa1b2c3d4 || magic == 0xd4c3b2a1;
    if (!from->is_big && magic != 0xd4c3b2a1 && magic != 0x4d3cb2a1)
        stop("no capture");
    if ((number(from, 20) & 0xffff) != 1)
        stop("no capture");
    from->at = HEADER;
    next(from);
    return from;
}

/* Flows. */

struct key {
    uint32_t inside, outside;
    uint16_t inside_port, outside_port;
};

struct entry {
    uint64_t stamp;
    struct key key;
    uint32_t hash, next, previous;
};

static uint32_t hash_of(const struct key *key)
{
    uint64_t addresses = (uint64_t)key->inside << 32 | key->outside;
    uint64_t ports = (uint64_t)key->inside_port << 16 | key->outside_port;
    uint64_t mixed = (addresses ^ ports * 0x9e3779b97f4a7c15u) * 0xd6e8feb86659fd93u;
    return (uint32_t)(mixed >> 32);
}

static int is_same(const struct key *one, const struct key *other)
{
    return one->inside == other->inside && one->outside == other->outside && one->inside_port == other->inside_port
        && one->outside_port == other->outside_port;
}

#include "tables.h"

/* What comes of a packet. */

enum action { SKIP, DROP, FORWARD };

struct answer {
    enum action action;
    uint32_t index;
};

/* The key of a frame's flow, whichever way it goes: whether it is of IPv4 with TCP or UDP, and no fragment. */
static int key_of(const uint8_t *frame, uint32_t captured, unsigned port, struct key *key)
{
    uint32_t at = end_of_ip(frame, captured);
    if (!at)
        return 0;
    uint32_t source = big(frame + 26), target = big(frame + 30);
    uint16_t source_port = (uint16_t)big_16(frame + at), target_port = (uint16_t)big_16(frame + at + 2);
    *key = port == 0 ? (struct key){source, target, source_port, target_port}
                     : (struct key){target, source, target_port, source_port};
    return 1;
}

static struct answer handle(const struct capture *from, unsigned port)
{
    struct key key;
    if (!key_of(from->bytes + from->at + RECORD, from->captured, port, &key))
        return (struct answer){SKIP, NONE};
    expire(from->time);
    uint32_t hash = hash_of(&key);
    uint32_t at = slot_of(&key, hash);
    uint32_t index = slots[at].index;
    if (index != NONE) {
        renew(index, from->time);
        return (struct answer){FORWARD, NONE};
    }
    index = entries[indices + 1].next;
    if (port == 1 || index == indices + 1)
        return (struct answer){DROP, NONE};
    slots[at] = (struct slot){hash, index};
    entries[index].key = key;
    entries[index].hash = hash;
    renew(index, from->time);
    return (struct answer){FORWARD, index};
}

/* What a packet and the flows leave in files. */

static void put_record(struct output *to, const struct capture *from)
{
    put_frame(to, from->time, from->captured, from->original, from->bytes + from->at + RECORD);
    full(to);
}

static void put_line(struct output *to, const struct capture *from, unsigned port, struct answer answer)
{
    put_number(to, port);
    put_text(to, " ");
    put_number(to, from->seq);
    put_text(to, answer.action == SKIP ? " 0 skip " : answer.action == DROP ? " 0 drop " : port ? " 0 to:0 " : " 0 to:1 ");
    if (answer.index == NONE)
        put_text(to, "-");
    else
        put_number(to, answer.index);
    put_text(to, "\n");
    full(to);
}

static void put_state(struct output *to)
{
    put_text(to, "chain flows greatest ");
    put_number(to, greatest);
    put_text(to, "\n");
    uint8_t *is_free = room(indices + 2);
    for (uint32_t index = entries[indices + 1].next; index != indices + 1; index = entries[index].next)
        is_free[index] = 1;
    for (uint32_t index = 0; index < indices; index++) {
        const struct entry *flow = &entries[index];
        if (is_free[index])
            continue;
        uint64_t values[4] = {flow->key.inside, flow->key.outside, flow->key.inside_port, flow->key.outside_port};
        put_number(to, index);
        put_text(to, " ");
        put_number(to, flow->stamp);
        for (unsigned k = 0; k < 4; k++) {
            put_text(to, (const char *[]){" a=", " b=", " c=", " d="}[k]);
            put_number(to, values[k]);
        }
        put_text(to, "\n");
        full(to);
    }
    flush(to);
}

int main(int count, char **words)
{
    if (count != 6)
        stop("OUT INSIDE OUTSIDE INDICES LIFETIME");
    indices = (uint32_t)strtoul(words[4], NULL, 10);
    lifetime = strtoull(words[5], NULL, 10);
    if (indices < 1 || indices > 65536)
        stop("there are 1 to 65536 indices");
    struct capture *from[2] = {capture(words[2]), capture(words[3])};
    struct output *to[2] = {output(words[1], "0.pcap"), output(words[1], "1.pcap")};
    struct output *journal = output(words[1], "journal");
    make_tables();
    put(to[0], pcap_header, HEADER);
    put(to[1], pcap_header, HEADER);
    put_text(journal, "maestro journal 1 one 1\n");
    while (from[0]->has_next || from[1]->has_next) {
        unsigned port = !from[0]->has_next || (from[1]->has_next && from[1]->time < from[0]->time);
        struct answer answer = handle(from[port], port);
        if (answer.action == FORWARD)
            put_record(to[1 - port], from[port]);
        put_line(journal, from[port], port, answer);
        from[port]->at += RECORD + from[port]->captured;
        from[port]->seq++;
        next(from[port]);
    }
    flush(to[0]);
    flush(to[1]);
    flush(journal);
    put_state(output(words[1], "state"));
    printf("ran %llu one 1\n", (unsigned long long)from[0]->seq + from[1]->seq);
    return 0;
}
