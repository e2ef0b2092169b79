/* Entries of a chain, in a list by the time of their last use, and found by open addressing: a slot has 32 bits of a
 * key's hash and the entry's index, and slots behind a freed one close up.
 *
 * Who includes this has a `struct key`, a `struct entry` with a stamp, a key, its hash, and the next and the previous
 * index, and `is_same`, which compares keys. */
#ifndef TABLES_H
#define TABLES_H

#include "by_hand.h"

struct slot {
    uint32_t hash, index;
};

/* Two rings go through them: at `indices` begins that of the live ones, and behind it that of the free ones. */
static struct entry *entries;
static struct slot *slots;
static uint32_t indices, mask;
static uint64_t greatest, lifetime;

static void link_last(uint32_t index, uint32_t ring)
{
    uint32_t last = entries[ring].previous;
    entries[index].previous = last;
    entries[index].next = ring;
    entries[last].next = index;
    entries[ring].previous = index;
}

static void unlink_entry(uint32_t index)
{
    entries[entries[index].previous].next = entries[index].next;
    entries[entries[index].next].previous = entries[index].previous;
}

static void make_tables(void)
{
    uint32_t count = 1;
    while (count < 2 * indices)
        count *= 2;
    mask = count - 1;
    entries = room((indices + 2) * sizeof *entries);
    slots = room(count * sizeof *slots);
    for (uint32_t at = 0; at < count; at++)
        slots[at].index = NONE;
    for (uint32_t ring = indices; ring < indices + 2; ring++)
        entries[ring].next = entries[ring].previous = ring;
    for (uint32_t index = 0; index < indices; index++)
        link_last(index, indices + 1);
}

/* The slot of a key, or the empty one where it is to stand. */
static uint32_t slot_of(const struct key *key, uint32_t hash)
{
    uint32_t at = hash & mask;
    while (slots[at].index != NONE && !(slots[at].hash == hash && is_same(&entries[slots[at].index].key, key)))
        at = (at + 1) & mask;
    return at;
}

static void take_out(uint32_t index)
{
    uint32_t hole = slot_of(&entries[index].key, entries[index].hash);
    for (uint32_t at = (hole + 1) & mask; slots[at].index != NONE; at = (at + 1) & mask) {
        if (((at - slots[at].hash) & mask) >= ((at - hole) & mask)) {
            slots[hole] = slots[at];
            hole = at;
        }
    }
    slots[hole].index = NONE;
}

static void renew(uint32_t index, uint64_t time)
{
    if (time > greatest)
        greatest = time;
    entries[index].stamp = greatest;
    unlink_entry(index);
    link_last(index, indices);
}

static void expire(uint64_t time)
{
    for (;;) {
        uint32_t oldest = entries[indices].next;
        if (oldest == indices || entries[oldest].stamp >= time || time - entries[oldest].stamp <= lifetime)
            return;
        take_out(oldest);
        unlink_entry(oldest);
        link_last(oldest, indices + 1);
    }
}

#endif
