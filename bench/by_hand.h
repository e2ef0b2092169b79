/* What the programs by hand share: errors, numbers of a frame, the pcap form that they write, and files. */
#ifndef BY_HAND_H
#define BY_HAND_H

#include <errno.h>
#include <fcntl.h>
#include <stdint.h>
#include <stdio.h>
#include <stdlib.h>
#include <string.h>
#include <unistd.h>

enum { PIECE = 65536, MOST_CAPTURED = 262144, HEADER = 24, RECORD = 16 };

static const uint32_t NONE = UINT32_MAX;

/* A capture in nanoseconds, in little-endian order, of Ethernet. */
static const uint8_t pcap_header[HEADER] = {
    0x4d, 0x3c, 0xb2, 0xa1, 2, 0, 4, 0, 0, 0, 0, 0, 0, 0, 0, 0, 0, 0, 4, 0, 1,
};

static void stop(const char *what)
{
    fprintf(stderr, "by hand: %s%s%s\n", what, errno ? ": " : "", errno ? strerror(errno) : "");
    exit(1);
}

static void *room(size_t size)
{
    void *found = calloc(1, size ? size : 1);
    if (!found)
        stop("out of memory");
    return found;
}

static uint32_t little(const uint8_t *at)
{
    uint32_t number;
    memcpy(&number, at, 4);
    return number;
}

static uint32_t big(const uint8_t *at)
{
    return __builtin_bswap32(little(at));
}

static uint32_t big_16(const uint8_t *at)
{
    return (uint32_t)at[0] << 8 | at[1];
}

/* How long the IPv4 header with what is before it is, where a frame is handled: one of IPv4 with TCP or UDP, and no
 * fragment. Else 0. */
static uint32_t end_of_ip(const uint8_t *frame, uint32_t captured)
{
    if (captured < 42 || big_16(frame + 12) != 0x0800 || frame[14] >> 4 != 4 || (frame[14] & 15) < 5)
        return 0;
    uint32_t at = 14u + 4u * (frame[14] & 15u);
    uint32_t needed = frame[23] == 6 ? 20 : frame[23] == 17 ? 8 : MOST_CAPTURED;
    if (big_16(frame + 20) & 0x3fff || at + needed > captured)
        return 0;
    return at;
}

/* Files that are written, each by its own buffer. */

struct output {
    int file;
    size_t used;
    uint8_t bytes[PIECE + RECORD + MOST_CAPTURED];
};

static struct output *output(const char *front, const char *end)
{
    char name[4096];
    struct output *to = room(sizeof *to);
    if (snprintf(name, sizeof name, "%s.%s", front, end) >= (int)sizeof name)
        stop("a name is too long");
    to->file = open(name, O_WRONLY | O_CREAT | O_TRUNC, 0666);
    if (to->file < 0)
        stop(name);
    return to;
}

static void flush(struct output *to)
{
    for (size_t at = 0; at < to->used;) {
        ssize_t count = write(to->file, to->bytes + at, to->used - at);
        if (count < 0)
            stop("a write failed");
        at += (size_t)count;
    }
    to->used = 0;
}

static void put(struct output *to, const void *bytes, size_t count)
{
    memcpy(to->bytes + to->used, bytes, count);
    to->used += count;
}

static void put_text(struct output *to, const char *text)
{
    put(to, text, strlen(text));
}

static void put_number(struct output *to, uint64_t number)
{
    char digits[20];
    unsigned at = sizeof digits;
    do {
        digits[--at] = (char)('0' + number % 10);
        number /= 10;
    } while (number);
    put(to, digits + at, sizeof digits - at);
}

static void put_frame(struct output *to, uint64_t time, uint32_t captured, uint32_t original, const uint8_t *frame)
{
    uint32_t numbers[4] = {(uint32_t)(time / 1000000000), (uint32_t)(time % 1000000000), captured, original};
    put(to, numbers, RECORD);
    put(to, frame, captured);
}

/* Writes what stands in the buffer, where that is a piece. Between two of these a frame or a line or two are put. */
static void full(struct output *to)
{
    if (to->used >= PIECE)
        flush(to);
}

#endif
