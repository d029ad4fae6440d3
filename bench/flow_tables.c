/* A plain scan of a flow table, and a plain switch over one: the yardstick of `sts_bench tables`.
 *
 * It does what `lookup` of `flow_table` and `packet` of `switch_core` do: all twelve fields of a match are compared or
 * wildcarded, the entry of greatest rank counts, and of these the first; a switch counts the packet and applies the actions
 * of the entry. The entries are those of the bench: the one at place i takes the packets to address i + 1.
 * Usage: flow_tables COUNT. Nanoseconds each go to standard error, the sums over what was found to standard output.
 */
#include <inttypes.h>
#include <stdbool.h>
#include <stdint.h>
#include <stdio.h>
#include <stdlib.h>
#include <string.h>
#include <time.h>

struct byte { bool there; uint8_t value; };
struct half { bool there; uint16_t value; };
struct address { bool there; uint64_t value; };
struct prefix { bool there; uint32_t address; uint8_t bits; };

struct match {
    struct half in_port, dl_vlan, dl_type, tp_src, tp_dst;
    struct address dl_src, dl_dst;
    struct byte dl_vlan_pcp, nw_tos, nw_proto;
    struct prefix nw_src, nw_dst;
};

struct header {
    uint64_t dl_src, dl_dst;
    uint16_t dl_vlan, dl_type, tp_src, tp_dst;
    uint8_t dl_vlan_pcp, nw_tos, nw_proto;
    uint32_t nw_src, nw_dst;
};

struct packet {
    struct header header;
    uint32_t tag;
};

struct action {
    uint16_t kind, port;
};

struct entry {
    struct match match;
    uint16_t priority;
    struct action *actions;
    size_t count;
    uint32_t hit;
    uint64_t packets, bytes;
};

struct table {
    struct entry *entries;
    size_t count;
};

/* Packets with the ports that they leave by. */
struct outs {
    struct { uint16_t port; struct packet packet; } *items;
    size_t count, room;
};

struct sw {
    struct table table;
    uint16_t ports;
    uint32_t clock;
};

enum { OFPP_IN_PORT = 0xfff8, OFPP_FLOOD = 0xfffb, OFPP_ALL = 0xfffc, IN_PORT = 1, OUT_PORT = 2, PRIORITY = 100, FULL = 1024, FEW = 16, NOBODY = 5000 };

static bool takes_prefix(const struct prefix *field, uint32_t number)
{
    return !field->there || field->bits == 0 || (field->address ^ number) >> (32 - field->bits) == 0;
}

#define TAKES(field, number) (!(field).there || (field).value == (number))

static bool takes(const struct match *match, uint16_t in_port, const struct header *header)
{
    return TAKES(match->in_port, in_port) && TAKES(match->dl_src, header->dl_src) && TAKES(match->dl_dst, header->dl_dst)
        && TAKES(match->dl_vlan, header->dl_vlan) && TAKES(match->dl_vlan_pcp, header->dl_vlan_pcp)
        && TAKES(match->dl_type, header->dl_type) && TAKES(match->nw_tos, header->nw_tos)
        && TAKES(match->nw_proto, header->nw_proto) && takes_prefix(&match->nw_src, header->nw_src)
        && takes_prefix(&match->nw_dst, header->nw_dst) && TAKES(match->tp_src, header->tp_src)
        && TAKES(match->tp_dst, header->tp_dst);
}

static bool has_wildcard(const struct match *match)
{
    return !match->in_port.there || !match->dl_src.there || !match->dl_dst.there || !match->dl_vlan.there
        || !match->dl_vlan_pcp.there || !match->dl_type.there || !match->nw_tos.there || !match->nw_proto.there
        || !match->nw_src.there || match->nw_src.bits < 32 || !match->nw_dst.there || match->nw_dst.bits < 32
        || !match->tp_src.there || !match->tp_dst.there;
}

/* An entry without wildcards comes before all with wildcards, and these by their priority. */
static int64_t rank_of(const struct entry *entry)
{
    return has_wildcard(&entry->match) ? entry->priority : 65536;
}

__attribute__((noinline)) struct entry *look_up(const struct table *table, uint16_t in_port, const struct header *header)
{
    struct entry *best = NULL;
    int64_t greatest = -1;
    for (size_t i = 0; i < table->count; i++) {
        struct entry *entry = &table->entries[i];
        int64_t rank = rank_of(entry);
        if (rank > greatest && takes(&entry->match, in_port, header)) {
            best = entry;
            greatest = rank;
        }
    }
    return best;
}

static uint64_t add_saturating(uint64_t sum, uint64_t more)
{
    return sum > UINT64_MAX - more ? UINT64_MAX : sum + more;
}

static bool put_out(struct outs *outs, uint16_t port, const struct packet *packet)
{
    if (outs->count == outs->room) {
        size_t room = outs->room == 0 ? 4 : 2 * outs->room;
        void *items = realloc(outs->items, room * sizeof *outs->items);
        if (items == NULL) {
            return false;
        }
        outs->items = items;
        outs->room = room;
    }
    outs->items[outs->count].port = port;
    outs->items[outs->count++].packet = *packet;
    return true;
}

/* Outputs alone: no entry here has another action. */
static bool apply(const struct sw *sw, struct outs *outs, const struct action *action, uint16_t in_port, const struct packet *packet)
{
    if (action->kind != 0) {
        return false;
    }
    switch (action->port) {
    case OFPP_IN_PORT:
        return put_out(outs, in_port, packet);
    case OFPP_FLOOD:
    case OFPP_ALL:
        for (uint16_t port = 1; port <= sw->ports; port++) {
            if (port != in_port && !put_out(outs, port, packet)) {
                return false;
            }
        }
        return true;
    default:
        return action->port == in_port || put_out(outs, action->port, packet);
    }
}

/* What leaves is on the heap, and the caller frees it. */
__attribute__((noinline)) bool take_packet(struct sw *sw, uint16_t in_port, const struct packet *packet, struct outs *outs)
{
    struct entry *entry = look_up(&sw->table, in_port, &packet->header);
    memset(outs, 0, sizeof *outs);
    if (entry == NULL) {
        return true;
    }
    for (size_t i = 0; i < entry->count; i++) {
        if (!apply(sw, outs, &entry->actions[i], in_port, packet)) {
            return false;
        }
    }
    entry->packets = add_saturating(entry->packets, 1);
    entry->bytes = add_saturating(entry->bytes, 64);
    entry->hit = sw->clock;
    return true;
}

/* The entry at place i takes the packets to address i + 1. */
static bool make_table(struct table *table, size_t count)
{
    table->entries = calloc(count, sizeof *table->entries);
    table->count = count;
    for (size_t i = 0; table->entries != NULL && i < count; i++) {
        struct entry *entry = &table->entries[i];
        entry->match.dl_dst = (struct address){ true, i + 1 };
        entry->priority = PRIORITY;
        entry->actions = calloc(1, sizeof *entry->actions);
        if (entry->actions == NULL) {
            return false;
        }
        entry->actions[0].port = OUT_PORT;
        entry->count = 1;
    }
    return table->entries != NULL;
}

/* The number tells the packet from others, so that no answer can be used again. */
static struct header header_to(uint64_t address, uint64_t number)
{
    return (struct header){
        .dl_src = 1, .dl_dst = address, .dl_vlan = 65535, .dl_type = 2048, .nw_proto = 6, .nw_src = 10, .nw_dst = 20,
        .tp_src = (uint16_t)number, .tp_dst = 80,
    };
}

static double seconds(void)
{
    struct timespec now;
    clock_gettime(CLOCK_MONOTONIC, &now);
    return (double)now.tv_sec + (double)now.tv_nsec / 1e9;
}

static uint64_t time_look_ups(const struct table *table, const char *name, uint64_t address, uint64_t calls)
{
    uint64_t sum = 0;
    double start = seconds();
    for (uint64_t number = 0; number < calls; number++) {
        struct header header = header_to(address, number);
        const struct entry *entry = look_up(table, IN_PORT, &header);
        sum += entry == NULL ? 0 : entry->match.dl_dst.value;
    }
    fprintf(stderr, "C: %s of %d: %.1f ns each\n", name, FULL, (seconds() - start) * 1e9 / (double)calls);
    return sum;
}

static bool time_switch(struct sw *sw, uint64_t calls, uint64_t *left)
{
    double start = seconds();
    for (uint64_t number = 0; number < calls; number++) {
        struct packet packet = { header_to(1, number), 7 };
        struct outs outs;
        if (!take_packet(sw, IN_PORT, &packet, &outs)) {
            return false;
        }
        *left += outs.count;
        free(outs.items);
    }
    fprintf(stderr, "C: switch of %d: %.1f ns each\n", FEW, (seconds() - start) * 1e9 / (double)calls);
    return true;
}

int main(int argc, char **argv)
{
    uint64_t calls = argc > 1 ? strtoull(argv[1], NULL, 10) : 1000000, left = 0;
    struct table table;
    struct sw sw = { .ports = 2 };
    if (calls == 0 || !make_table(&table, FULL) || !make_table(&sw.table, FEW)) {
        return 1;
    }
    uint64_t first = time_look_ups(&table, "first", 1, calls);
    uint64_t last = time_look_ups(&table, "last", FULL, calls);
    uint64_t none = time_look_ups(&table, "none", NOBODY, calls);
    if (!time_switch(&sw, calls, &left) || sw.table.entries[0].packets != calls) {
        return 1;
    }
    printf("C: %" PRIu64 " look-ups each: first %" PRIu64 ", last %" PRIu64 ", none %" PRIu64 "; %" PRIu64 " packets left\n", calls, first, last, none, left);
    return 0;
}
