/* -z nbt,tree: packets by service, refusals by their words, fragments by what became of them. */
#include "shark.h"
#include <epan/stats_tree.h>
#include <epan/tap.h>

const value_string outcomes[] = {
    {NBT_KEPT, "kept"},       {NBT_SPOILT, "spoilt"},     {NBT_DELIVERED, "delivered"}, {NBT_UNHEARD, "unheard"},
    {NBT_OTHER, "other"},     {NBT_REFUSED, "refused"},   {TAKEN_NOT, "refused"},       {0, NULL},
};

/* What a payload is counted by. */
struct counted {
    guint16 port;
    const char *refusal, *outcome;  /* or NULL */
    bool cut;
};

static int tap_nbt, packets, refused, fragments;
static const char *const services[] = {"Name service, port 137", "Datagram service, port 138", "Session service, port 139"};

void count_payload(packet_info *pinfo, const struct payload *payload, const struct fragment *fragment)
{
    struct counted *counted;
    if (!have_tap_listener(tap_nbt) || payload->status == NBT_MORE) return;
    counted = wmem_new0(pinfo->pool, struct counted);
    counted->port = payload->port;
    counted->cut = payload->cut;
    if (!payload->cut && payload->status != NBT_DONE) counted->refusal = words_of(pinfo->pool, payload->status);
    if (fragment != NULL && fragment->datagram != NULL) counted->outcome = val_to_str_const(fragment->outcome, outcomes, "unknown");
    tap_queue_packet(tap_nbt, pinfo, counted);
}

static void begin(stats_tree *tree)
{
    packets = stats_tree_create_node(tree, "Packets", 0, STAT_DT_INT, TRUE);
    refused = stats_tree_create_node(tree, "Refused", 0, STAT_DT_INT, TRUE);
    fragments = stats_tree_create_node(tree, "Fragments", 0, STAT_DT_INT, TRUE);
}

static tap_packet_status count(stats_tree *tree, packet_info *pinfo _U_, epan_dissect_t *dissection _U_, const void *data,
                               tap_flags_t flags _U_)
{
    const struct counted *counted = data;
    tick_stat_node(tree, "Packets", 0, FALSE);
    tick_stat_node(tree, services[counted->port - NAME_SERVICE], packets, FALSE);
    if (counted->cut) tick_stat_node(tree, "Cut by the snap length", packets, FALSE);
    if (counted->refusal != NULL) {
        tick_stat_node(tree, "Refused", 0, FALSE);
        tick_stat_node(tree, counted->refusal, refused, FALSE);
    }
    if (counted->outcome != NULL) {
        tick_stat_node(tree, "Fragments", 0, FALSE);
        tick_stat_node(tree, counted->outcome, fragments, FALSE);
    }
    return TAP_PACKET_REDRAW;
}

void register_tapping(void)
{
    tap_nbt = register_tap("nbt");
}

void register_statistics(void)
{
    stats_tree_register_plugin("nbt", "nbt", "NetBIOS over TCP and UDP, by nbt", 0, count, begin, NULL);
}
