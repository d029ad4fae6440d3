/* A plain decoder and encoder of OpenFlow 1.0.0 FLOW_MODs: the yardstick of `sts_bench messages`.
 *
 * It does what `decode` and `encode` of `of10_messages` do for this one type: every length is tested, the match is read
 * into fields that are there or not, the actions go into a list on the heap, and what is written is built on the heap.
 * Usage: flow_mods COUNT. Nanoseconds each go to standard error, the sums over what was read and written to standard
 * output.
 */
#include <inttypes.h>
#include <stdbool.h>
#include <stdint.h>
#include <stdio.h>
#include <stdlib.h>
#include <string.h>
#include <time.h>

struct number { bool there; uint64_t value; };
struct prefix { bool there; uint32_t address; uint8_t bits; };

struct match {
    struct number in_port, dl_src, dl_dst, dl_vlan, dl_vlan_pcp, dl_type, nw_tos, nw_proto, tp_src, tp_dst;
    struct prefix nw_src, nw_dst;
};

struct action {
    uint16_t kind;
    uint64_t value;
    uint16_t max_len;
};

struct flow_mod {
    uint32_t xid;
    struct match match;
    uint64_t cookie;
    uint16_t command, idle_timeout, hard_timeout, priority;
    uint32_t buffer_id;
    uint16_t out_port, flags;
    struct action *actions;
    size_t count;
};

static uint64_t number_at(const uint8_t *bytes, size_t at, size_t len)
{
    uint64_t number = 0;
    for (size_t i = 0; i < len; i++) {
        number = number << 8 | bytes[at + i];
    }
    return number;
}

static void put_number(uint8_t *bytes, size_t at, size_t len, uint64_t number)
{
    for (size_t i = len; i-- > 0; number >>= 8) {
        bytes[at + i] = (uint8_t)number;
    }
}

static struct number number_field(const uint8_t *bytes, uint32_t wildcards, int bit, size_t at, size_t len)
{
    struct number field = { (wildcards >> bit & 1) == 0, 0 };
    if (field.there) {
        field.value = number_at(bytes, at, len);
    }
    return field;
}

static struct prefix prefix_field(const uint8_t *bytes, uint32_t count, size_t at)
{
    struct prefix field = { count < 32, 0, 0 };
    if (field.there) {
        field.address = (uint32_t)number_at(bytes, at, 4) >> count << count;
        field.bits = (uint8_t)(32 - count);
    }
    return field;
}

static void read_match(const uint8_t *bytes, struct match *match)
{
    uint32_t wildcards = (uint32_t)number_at(bytes, 0, 4);
    match->in_port = number_field(bytes, wildcards, 0, 4, 2);
    match->dl_src = number_field(bytes, wildcards, 2, 6, 6);
    match->dl_dst = number_field(bytes, wildcards, 3, 12, 6);
    match->dl_vlan = number_field(bytes, wildcards, 1, 18, 2);
    match->dl_vlan_pcp = number_field(bytes, wildcards, 20, 20, 1);
    match->dl_type = number_field(bytes, wildcards, 4, 22, 2);
    match->nw_tos = number_field(bytes, wildcards, 21, 24, 1);
    match->nw_proto = number_field(bytes, wildcards, 5, 25, 1);
    match->nw_src = prefix_field(bytes, wildcards >> 8 & 63, 28);
    match->nw_dst = prefix_field(bytes, wildcards >> 14 & 63, 32);
    match->tp_src = number_field(bytes, wildcards, 6, 36, 2);
    match->tp_dst = number_field(bytes, wildcards, 7, 38, 2);
}

static void put_match(uint8_t *bytes, const struct match *match)
{
    const struct { const struct number *field; int bit; size_t at, len; } fields[] = {
        { &match->in_port, 0, 4, 2 }, { &match->dl_src, 2, 6, 6 }, { &match->dl_dst, 3, 12, 6 },
        { &match->dl_vlan, 1, 18, 2 }, { &match->dl_vlan_pcp, 20, 20, 1 }, { &match->dl_type, 4, 22, 2 },
        { &match->nw_tos, 21, 24, 1 }, { &match->nw_proto, 5, 25, 1 }, { &match->tp_src, 6, 36, 2 },
        { &match->tp_dst, 7, 38, 2 },
    };
    uint32_t wildcards = 0;
    memset(bytes, 0, 40);
    for (size_t i = 0; i < sizeof fields / sizeof *fields; i++) {
        if (fields[i].field->there) {
            put_number(bytes, fields[i].at, fields[i].len, fields[i].field->value);
        } else {
            wildcards |= 1u << fields[i].bit;
        }
    }
    wildcards |= (match->nw_src.there ? 32u - match->nw_src.bits : 32u) << 8;
    wildcards |= (match->nw_dst.there ? 32u - match->nw_dst.bits : 32u) << 14;
    put_number(bytes, 28, 4, match->nw_src.there ? match->nw_src.address : 0);
    put_number(bytes, 32, 4, match->nw_dst.there ? match->nw_dst.address : 0);
    put_number(bytes, 0, 4, wildcards);
}

/* The actions of one to eleven bytes types; others are refused, since no message here has them. */
static bool read_actions(const uint8_t *bytes, size_t len, struct flow_mod *mods)
{
    size_t count = 0;
    for (size_t at = 0; at < len; count++) {
        if (len - at < 8) {
            return false;
        }
        size_t kind = number_at(bytes, at, 2), told = number_at(bytes, at + 2, 2);
        if (kind > 10 || told != (kind == 4 || kind == 5 ? 16u : 8u) || told > len - at) {
            return false;
        }
        at += told;
    }
    mods->count = count;
    mods->actions = malloc(count * sizeof *mods->actions);
    if (count > 0 && mods->actions == NULL) {
        return false;
    }
    for (size_t at = 0, i = 0; i < count; i++) {
        struct action *action = &mods->actions[i];
        action->kind = (uint16_t)number_at(bytes, at, 2);
        size_t width = action->kind == 4 || action->kind == 5 ? 6 : action->kind == 6 || action->kind == 7 ? 4 : 2;
        action->value = number_at(bytes, at + 4, width);
        action->max_len = (uint16_t)number_at(bytes, at + 6, 2);
        at += number_at(bytes, at + 2, 2);
    }
    return true;
}

__attribute__((noinline)) bool read_flow_mod(const uint8_t *bytes, size_t len, struct flow_mod *mods)
{
    if (len < 72 || bytes[0] != 1 || bytes[1] != 14 || number_at(bytes, 2, 2) != len) {
        return false;
    }
    mods->xid = (uint32_t)number_at(bytes, 4, 4);
    read_match(bytes + 8, &mods->match);
    mods->cookie = number_at(bytes, 48, 8);
    mods->command = (uint16_t)number_at(bytes, 56, 2);
    mods->idle_timeout = (uint16_t)number_at(bytes, 58, 2);
    mods->hard_timeout = (uint16_t)number_at(bytes, 60, 2);
    mods->priority = (uint16_t)number_at(bytes, 62, 2);
    mods->buffer_id = (uint32_t)number_at(bytes, 64, 4);
    mods->out_port = (uint16_t)number_at(bytes, 68, 2);
    mods->flags = (uint16_t)number_at(bytes, 70, 2);
    return read_actions(bytes + 72, len - 72, mods);
}

__attribute__((noinline)) uint8_t *write_flow_mod(const struct flow_mod *mods, size_t *len)
{
    *len = 72;
    for (size_t i = 0; i < mods->count; i++) {
        *len += mods->actions[i].kind == 4 || mods->actions[i].kind == 5 ? 16 : 8;
    }
    uint8_t *bytes = calloc(*len, 1);
    if (bytes == NULL) {
        return NULL;
    }
    bytes[0] = 1;
    bytes[1] = 14;
    put_number(bytes, 2, 2, *len);
    put_number(bytes, 4, 4, mods->xid);
    put_match(bytes + 8, &mods->match);
    put_number(bytes, 48, 8, mods->cookie);
    put_number(bytes, 56, 2, mods->command);
    put_number(bytes, 58, 2, mods->idle_timeout);
    put_number(bytes, 60, 2, mods->hard_timeout);
    put_number(bytes, 62, 2, mods->priority);
    put_number(bytes, 64, 4, mods->buffer_id);
    put_number(bytes, 68, 2, mods->out_port);
    put_number(bytes, 70, 2, mods->flags);
    for (size_t at = 72, i = 0; i < mods->count; i++) {
        const struct action *action = &mods->actions[i];
        size_t told = action->kind == 4 || action->kind == 5 ? 16 : 8;
        size_t width = action->kind == 4 || action->kind == 5 ? 6 : action->kind == 6 || action->kind == 7 ? 4 : 2;
        put_number(bytes, at, 2, action->kind);
        put_number(bytes, at + 2, 2, told);
        put_number(bytes, at + 4, width, action->value);
        if (action->kind == 0) {
            put_number(bytes, at + 6, 2, action->max_len);
        }
        at += told;
    }
    return bytes;
}

/* ADD with all twelve fields of a match, and one output. */
static const uint8_t FLOW_MOD[80] = {
    0x01, 0x0e, 0x00, 0x50, 0x00, 0x00, 0x00, 0x04, 0x00, 0x00, 0x00, 0x00, 0x00, 0x02, 0x00, 0x00,
    0x00, 0x00, 0x00, 0x02, 0x00, 0x00, 0x00, 0x00, 0x00, 0x01, 0xff, 0xff, 0x00, 0x00, 0x08, 0x00,
    0x00, 0x06, 0x00, 0x00, 0x00, 0x00, 0x00, 0x14, 0x00, 0x00, 0x00, 0x0a, 0x00, 0x50, 0x03, 0xe8,
    0x00, 0x00, 0x00, 0x00, 0x00, 0x00, 0x00, 0x01, 0x00, 0x00, 0x00, 0x00, 0x00, 0x00, 0x80, 0x00,
    0xff, 0xff, 0xff, 0xff, 0xff, 0xff, 0x00, 0x00, 0x00, 0x00, 0x00, 0x08, 0x00, 0x01, 0x00, 0x00,
};

static double seconds(void)
{
    struct timespec now;
    clock_gettime(CLOCK_MONOTONIC, &now);
    return (double)now.tv_sec + (double)now.tv_nsec / 1e9;
}

/* A round goes over messages that differ in xid and cookie, so that no answer can be used again. */
enum { ROUND = 100 };

static uint8_t wires[ROUND][sizeof FLOW_MOD];
static struct flow_mod messages[ROUND];

static bool make_messages(void)
{
    for (int i = 0; i < ROUND; i++) {
        memcpy(wires[i], FLOW_MOD, sizeof FLOW_MOD);
        wires[i][7] = wires[i][55] = (uint8_t)i;
        if (!read_flow_mod(wires[i], sizeof wires[i], &messages[i])) {
            return false;
        }
    }
    return true;
}

static bool decode_rounds(uint64_t rounds, uint64_t *cookies)
{
    for (uint64_t round = 0; round < rounds; round++) {
        for (int i = 0; i < ROUND; i++) {
            struct flow_mod mods;
            if (!read_flow_mod(wires[i], sizeof wires[i], &mods)) {
                return false;
            }
            *cookies += mods.cookie;
            free(mods.actions);
        }
    }
    return true;
}

static bool encode_rounds(uint64_t rounds, uint64_t *lengths)
{
    for (uint64_t round = 0; round < rounds; round++) {
        for (int i = 0; i < ROUND; i++) {
            size_t len;
            uint8_t *bytes = write_flow_mod(&messages[i], &len);
            if (bytes == NULL) {
                return false;
            }
            *lengths += len;
            free(bytes);
        }
    }
    return true;
}

static bool written_as_read(void)
{
    for (int i = 0; i < ROUND; i++) {
        size_t len;
        uint8_t *bytes = write_flow_mod(&messages[i], &len);
        bool same = bytes != NULL && len == sizeof wires[i] && memcmp(bytes, wires[i], len) == 0;
        free(bytes);
        if (!same) {
            return false;
        }
    }
    return true;
}

int main(int argc, char **argv)
{
    uint64_t rounds = (argc > 1 ? strtoull(argv[1], NULL, 10) : 1000000) / ROUND, cookies = 0, lengths = 0;
    if (rounds == 0 || !make_messages() || !written_as_read()) {
        return 1;
    }
    double calls = (double)rounds * ROUND, start = seconds();
    if (!decode_rounds(rounds, &cookies)) {
        return 1;
    }
    fprintf(stderr, "C: decode: %.1f ns each\n", (seconds() - start) * 1e9 / calls);
    start = seconds();
    if (!encode_rounds(rounds, &lengths)) {
        return 1;
    }
    fprintf(stderr, "C: encode: %.1f ns each\n", (seconds() - start) * 1e9 / calls);
    printf("C: %" PRIu64 " FLOW_MODs of 80 bytes: cookies %" PRIu64 ", lengths %" PRIu64 "\n", rounds * ROUND, cookies, lengths);
    return 0;
}
