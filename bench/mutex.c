/* The bridge and the firewall of bench/lock by hand, by threads of the system that share tables under one mutex.
 *
 *     mutex OUT bridge|firewall WORKERS INDICES LIFETIME CAPTURE..
 *
 * As `maestro run --mode lock` does, it loads all captures, one for each port, has worker p modulo WORKERS handle the
 * packets of port p in capture order, and then writes OUT.0.pcap and so on, OUT.journal and OUT.state in the order in
 * which packets were handled: `maestro replay` judges them. Headers are read and keys are hashed outside the mutex.
 * Where OUT is `-` nothing is written, and it prints how long the workers took.
 * Captures are classic pcap with nanoseconds in little-endian order, of this folder's traffic.
 */
#include "by_hand.h"
#include <pthread.h>
#include <sys/stat.h>
#include <time.h>

enum { PORTS = 4 };

/* Captures that are held whole. */

struct packet {
    uint64_t time;
    const uint8_t *record;
    uint32_t port, seq;
};

struct capture {
    struct packet *packets;
    size_t count;
};

static struct capture captures[PORTS];
static unsigned ports;

static void load(unsigned port, const char *name)
{
    int file = open(name, O_RDONLY);
    struct stat told;
    if (file < 0 || fstat(file, &told))
        stop(name);
    size_t size = (size_t)told.st_size, at = 0;
    uint8_t *bytes = room(size);
    while (at < size) {
        ssize_t count = read(file, bytes + at, size - at);
        if (count <= 0)
            stop("a read failed");
        at += (size_t)count;
    }
    if (size < HEADER || little(bytes) != 0xa1b23c4d)
        stop("no capture in nanoseconds");
    struct capture *to = &captures[port];
    to->packets = room((size - HEADER) / RECORD * sizeof *to->packets);
    uint64_t latest = 0;
    for (at = HEADER; at + RECORD <= size; at += RECORD + little(bytes + at + 8)) {
        uint64_t time = little(bytes + at) * UINT64_C(1000000000) + little(bytes + at + 4);
        latest = time > latest ? time : latest;
        to->packets[to->count] = (struct packet){latest, bytes + at, port, (uint32_t)to->count};
        to->count++;
    }
}

/* Entries: hosts of a bridge, or flows of a firewall. */

struct key {
    uint64_t high, low;
};

struct entry {
    uint64_t stamp;
    struct key key;
    uint32_t hash, next, previous, at;
};

static uint32_t hash_of(struct key key)
{
    return (uint32_t)(((key.high ^ key.low * 0x9e3779b97f4a7c15u) * 0xd6e8feb86659fd93u) >> 32);
}

static int is_same(const struct key *one, const struct key *other)
{
    return one->high == other->high && one->low == other->low;
}

#include "tables.h"

/* The index of a new entry, or NONE where there is no room. */
static uint32_t create(struct key key, uint32_t hash, uint64_t time)
{
    uint32_t index = entries[indices + 1].next;
    if (index == indices + 1)
        return NONE;
    slots[slot_of(&key, hash)] = (struct slot){hash, index};
    entries[index].key = key;
    entries[index].hash = hash;
    renew(index, time);
    return index;
}

/* The two functions. What a packet asks of the tables is found before the mutex is taken. */

enum { SKIP = -3, DROP = -2, FLOOD = -1 };

struct question {
    struct key source, target;
    uint32_t source_hash, target_hash;
    int is_handled;
};

struct answer {
    const struct packet *packet;
    int32_t action; /* a port, or one of the above */
    uint32_t index;
};

static int is_bridge;

static struct question question_of(const struct packet *packet)
{
    const uint8_t *frame = packet->record + RECORD;
    uint32_t captured = little(packet->record + 8);
    struct question found = {0};
    uint32_t at = end_of_ip(frame, captured);
    if (!at)
        return found;
    found.is_handled = 1;
    if (is_bridge) {
        found.target = (struct key){0, (uint64_t)big_16(frame) << 32 | big(frame + 2)};
        found.source = (struct key){0, (uint64_t)big_16(frame + 6) << 32 | big(frame + 8)};
    } else {
        uint64_t there = big(frame + 26), back = big(frame + 30), from = big_16(frame + at), to = big_16(frame + at + 2);
        found.source = packet->port % 2 ? (struct key){back << 32 | there, to << 16 | from}
                                        : (struct key){there << 32 | back, from << 16 | to};
    }
    found.source_hash = hash_of(found.source);
    found.target_hash = hash_of(found.target);
    return found;
}

static struct answer bridged(const struct packet *packet, const struct question *asked)
{
    struct answer found = {packet, FLOOD, NONE};
    uint32_t index = slots[slot_of(&asked->source, asked->source_hash)].index;
    if (index != NONE)
        renew(index, packet->time);
    else
        index = found.index = create(asked->source, asked->source_hash, packet->time);
    if (index != NONE)
        entries[index].at = packet->port;
    uint32_t target = slots[slot_of(&asked->target, asked->target_hash)].index;
    if (target != NONE)
        found.action = (int32_t)entries[target].at;
    return found;
}

static struct answer walled(const struct packet *packet, const struct question *asked)
{
    struct answer found = {packet, ports == 1 ? 0 : (int32_t)(packet->port ^ 1), NONE};
    if (slots[slot_of(&asked->source, asked->source_hash)].index != NONE)
        return found;
    if (packet->port % 2 == 0)
        found.index = create(asked->source, asked->source_hash, packet->time);
    if (found.index == NONE)
        found.action = DROP;
    return found;
}

static pthread_mutex_t mutex = PTHREAD_MUTEX_INITIALIZER;
static struct answer *order;
static size_t handled;
static unsigned workers;

static void handle(const struct packet *packet)
{
    struct question asked = question_of(packet);
    pthread_mutex_lock(&mutex);
    struct answer found = {packet, SKIP, NONE};
    if (asked.is_handled) {
        expire(packet->time);
        found = is_bridge ? bridged(packet, &asked) : walled(packet, &asked);
    }
    order[handled++] = found;
    pthread_mutex_unlock(&mutex);
}

/* A worker's packets in capture order. */
static void *work(void *number)
{
    size_t at[PORTS] = {0};
    for (;;) {
        const struct packet *next = NULL;
        for (unsigned port = (unsigned)(uintptr_t)number; port < ports; port += workers) {
            const struct capture *from = &captures[port];
            if (at[port] < from->count && (!next || from->packets[at[port]].time < next->time))
                next = &from->packets[at[port]];
        }
        if (!next)
            return NULL;
        at[next->port]++;
        handle(next);
    }
}

/* What the packets and the tables leave in files. */

static void put_record(struct output *to, const struct packet *packet)
{
    const uint8_t *record = packet->record;
    put_frame(to, packet->time, little(record + 8), little(record + 12), record + RECORD);
    full(to);
}

static void put_after(struct output *to, const char *before, uint64_t number)
{
    put_text(to, before);
    put_number(to, number);
}

static void put_line(struct output *to, const struct answer *answer)
{
    static const char *const words[] = {" skip", " drop", " flood"};
    put_number(to, answer->packet->port);
    put_after(to, " ", answer->packet->seq);
    put_after(to, " ", workers > 1 ? answer->packet->port % workers : 0);
    if (answer->action < 0)
        put_text(to, words[answer->action - SKIP]);
    else
        put_after(to, " to:", (uint64_t)answer->action);
    if (answer->index == NONE)
        put_text(to, " -");
    else
        put_after(to, " ", answer->index);
    put_text(to, "\n");
    full(to);
}

static void put_state(struct output *to)
{
    put_after(to, is_bridge ? "chain macs greatest " : "chain flows greatest ", greatest);
    uint8_t *is_free = room(indices + 2);
    for (uint32_t index = entries[indices + 1].next; index != indices + 1; index = entries[index].next)
        is_free[index] = 1;
    for (uint32_t index = 0; index < indices; index++) {
        const struct entry *entry = &entries[index];
        if (is_free[index])
            continue;
        full(to);
        put_after(to, "\n", index);
        put_after(to, " ", entry->stamp);
        if (is_bridge) {
            put_after(to, " m=", entry->key.low);
            put_after(to, " at=", entry->at);
            continue;
        }
        put_after(to, " a=", entry->key.high >> 32);
        put_after(to, " b=", entry->key.high & UINT32_MAX);
        put_after(to, " c=", entry->key.low >> 16);
        put_after(to, " d=", entry->key.low & 0xffff);
    }
    put_text(to, "\n");
    flush(to);
}

static void write_all(const char *front)
{
    struct output *to[PORTS];
    for (unsigned port = 0; port < ports; port++) {
        to[port] = output(front, (const char *[]){"0.pcap", "1.pcap", "2.pcap", "3.pcap"}[port]);
        put(to[port], pcap_header, HEADER);
    }
    struct output *journal = output(front, "journal");
    put_after(journal, workers > 1 ? "maestro journal 1 lock " : "maestro journal 1 one ", workers);
    put_text(journal, "\n");
    for (size_t at = 0; at < handled; at++) {
        const struct answer *answer = &order[at];
        for (unsigned port = 0; port < ports; port++) {
            if (answer->action == (int32_t)port || (answer->action == FLOOD && port != answer->packet->port))
                put_record(to[port], answer->packet);
        }
        put_line(journal, answer);
    }
    for (unsigned port = 0; port < ports; port++)
        flush(to[port]);
    flush(journal);
    put_state(output(front, "state"));
}

/* Starts the workers, and waits for them to end; gives how many nanoseconds that took. */
static uint64_t handle_all(void)
{
    struct timespec start, end;
    pthread_t threads[16];
    clock_gettime(CLOCK_MONOTONIC, &start);
    for (unsigned worker = 0; worker < workers; worker++) {
        if (pthread_create(&threads[worker], NULL, work, (void *)(uintptr_t)worker))
            stop("a thread can't be started");
    }
    for (unsigned worker = 0; worker < workers; worker++)
        pthread_join(threads[worker], NULL);
    clock_gettime(CLOCK_MONOTONIC, &end);
    return (uint64_t)(end.tv_sec - start.tv_sec) * 1000000000u + (uint64_t)end.tv_nsec - (uint64_t)start.tv_nsec;
}

int main(int count, char **words)
{
    if (count < 7 || count > 6 + PORTS)
        stop("OUT bridge|firewall WORKERS INDICES LIFETIME CAPTURE..");
    is_bridge = strcmp(words[2], "bridge") == 0;
    workers = (unsigned)strtoul(words[3], NULL, 10);
    indices = (uint32_t)strtoul(words[4], NULL, 10);
    lifetime = strtoull(words[5], NULL, 10);
    ports = (unsigned)count - 6;
    if (indices < 1 || indices > 65536 || workers < 1 || workers > 16)
        stop("there are 1 to 65536 indices and 1 to 16 workers");
    size_t all = 0;
    for (unsigned port = 0; port < ports; port++) {
        load(port, words[6 + port]);
        all += captures[port].count;
    }
    order = room(all * sizeof *order);
    make_tables();
    uint64_t took = handle_all();
    if (strcmp(words[1], "-") == 0) {
        printf("handled %zu in %llu ns\n", handled, (unsigned long long)took);
        return 0;
    }
    write_all(words[1]);
    printf("ran %zu %s %u\n", handled, workers > 1 ? "lock" : "one", workers);
    return 0;
}
