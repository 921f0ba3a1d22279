/* What became of a fragment, and the datagram that it is of: its data as a source of its own, and links between frames. */
#include "shark.h"

/* Wireshark's dissectors of what stands in datagrams, as SMB. */
static heur_dissector_list_t inner;

void hand_off_datagrams(void)
{
    inner = find_heur_dissector_list("netbios");
}

static void show_link(proto_tree *tree, int field, const struct payload *payload, const struct fragment *fragment)
{
    if (fragment != NULL && fragment->frame != 0)
        proto_item_set_generated(proto_tree_add_uint(tree, field, payload->tvb, payload->start, 0, fragment->frame));
}

/* The frames of all fragments, at the one that came last, or that decided. A frame that is written to a file takes them along. */
static void show_fragments(packet_info *pinfo, proto_tree *tree, const struct payload *payload, const struct fragment *last)
{
    const struct fragment *each;
    proto_item *head;
    proto_tree *frames = proto_tree_add_subtree(tree, payload->tvb, payload->start, 0, ett_fragments, &head, "Frames of its fragments");
    proto_item_set_generated(head);
    for (each = last->datagram->first; each != NULL; each = each == last ? NULL : each->next) {
        show_link(frames, hf_fragment, payload, each);
        if (each->frame != 0 && each != last) mark_frame_as_depended_upon(MARKED_BY(pinfo), each->frame);
    }
}

/* The data that came in several fragments. Where the Info column has the phrase, no words about them replace it. */
static void show_joined(packet_info *pinfo, proto_tree *top, proto_tree *tree, tvbuff_t *parent, const struct datagram *datagram)
{
    tvbuff_t *tvb = tvb_new_child_real_data(parent, datagram->data, datagram->length, (gint)datagram->length);
    heur_dtbl_entry_t *entry = NULL;
    bool was_writable = col_get_writable(pinfo->cinfo, COL_INFO);
    add_new_data_source(pinfo, tvb, "Datagram put together");
    proto_item_set_generated(proto_tree_add_item(tree, hf_datagram, tvb, 0, (gint)datagram->length, ENC_NA));
    if (inner == NULL || datagram->length == 0) return;
    if (phrases_in_info) col_set_writable(pinfo->cinfo, COL_INFO, false);
    dissector_try_heuristic(inner, tvb, pinfo, top, &entry, NULL);
    if (phrases_in_info) col_set_writable(pinfo->cinfo, COL_INFO, was_writable);
}

/* The data of a datagram that is one packet: Wireshark's dissector of datagrams has handed it on. */
static void show_single(proto_tree *tree, const struct payload *payload)
{
    proto_tree_add_item(tree, hf_datagram, payload->tvb, payload->start + (int)payload->datagram.data,
                        (int)payload->datagram.data_length, ENC_NA);
}

static void show_key(proto_tree *tree, wmem_allocator_t *scope, const struct payload *payload)
{
    const struct nbt_datagram *packet = &payload->datagram;
    if (!proto_field_is_referenced(tree, hf_key)) return;
    proto_item_set_generated(proto_tree_add_string(
        tree, hf_key, payload->tvb, payload->start, payload->length,
        wmem_strdup_printf(scope, "%u.%u.%u.%u:%u/%04x", packet->address >> 24, packet->address >> 16 & 255,
                           packet->address >> 8 & 255, packet->address & 255, packet->port, packet->identifier)));
}

static void show_datagram(packet_info *pinfo, proto_tree *top, proto_tree *tree, const struct payload *payload,
                          const struct fragment *fragment)
{
    struct datagram *datagram = fragment->datagram;
    bool decided = fragment->outcome != NBT_KEPT;
    const char *missing = PINFO_FD_VISITED(pinfo) ? missing_of(datagram) : NULL;
    if (datagram->first->next != NULL && (decided || (missing != NULL && fragment->next == NULL)))
        show_fragments(pinfo, tree, payload, fragment);
    if (datagram->completed_by != fragment) show_link(tree, hf_whole_in, payload, datagram->completed_by);
    if (datagram->spoilt_by != fragment) show_link(tree, hf_spoilt_in, payload, datagram->spoilt_by);
    if (missing != NULL) {
        proto_item *item = proto_tree_add_string(tree, hf_missing, payload->tvb, payload->start, 0, missing);
        proto_item_set_generated(item);
        if (fragment->next == NULL) expert_add_info_format(pinfo, item, &ei_missing, "Incomplete: %s", missing);
    }
    if (fragment->outcome != NBT_DELIVERED) return;
    if (datagram->data != NULL) show_joined(pinfo, top, tree, payload->tvb, datagram);
    else show_single(tree, payload);
}

void show_state(packet_info *pinfo, proto_tree *top, proto_tree *tree, const struct payload *payload,
                const struct fragment *fragment)
{
    proto_item *item = proto_tree_add_string(tree, hf_state, payload->tvb, payload->start, 0,
                                             val_to_str_const(fragment->outcome, outcomes, "unknown"));
    proto_item_set_generated(item);
    if (fragment->outcome == TAKEN_NOT)
        expert_add_info_format(pinfo, item, &ei_state, "Refused by the station: %s", words_of(pinfo->pool, fragment->refusal));
    if (fragment->datagram == NULL) return;
    if (fault_of_names() != NULL) expert_add_info_format(pinfo, item, &ei_names, "%s: all are heard", fault_of_names());
    if (fragment->outcome == NBT_SPOILT) expert_add_info(pinfo, item, &ei_spoilt);
    show_key(tree, pinfo->pool, payload);
    show_datagram(pinfo, top, tree, payload, fragment);
}
