/* The hashes of IPv4 and IPv6 packets with ports by DPDK's rte_softrss, as a library for fuzz/meetings-outside. */
#include <stdint.h>
#include <rte_thash.h>

uint32_t outside_hash(const uint8_t *key, uint32_t src_ip, uint32_t dst_ip, uint16_t src_port, uint16_t dst_port)
{
    union rte_thash_tuple tuple = { 0 };
    tuple.v4.src_addr = src_ip;
    tuple.v4.dst_addr = dst_ip;
    tuple.v4.sport = src_port;
    tuple.v4.dport = dst_port;
    return rte_softrss((uint32_t *)&tuple, RTE_THASH_V4_L4_LEN, key);
}

/* Addresses are eight words in host order, the source before the destination. */
uint32_t outside_hash6(const uint8_t *key, const uint32_t *addresses, uint16_t src_port, uint16_t dst_port)
{
    union rte_thash_tuple tuple = { 0 };
    uint32_t *words = (uint32_t *)&tuple;
    for (int at = 0; at < 8; at++)
        words[at] = addresses[at];
    tuple.v6.sport = src_port;
    tuple.v6.dport = dst_port;
    return rte_softrss(words, RTE_THASH_V6_L4_LEN, key);
}
