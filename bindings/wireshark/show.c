/* The post-dissector: a tree for each payload of the frame, and what stands in the Info column. */
#include "shark.h"
#include <epan/proto.h>

/* What is said of a payload that the file has a part of, in the words of nbt-look. */
static const char *phrase_of_cut(wmem_allocator_t *scope, const struct payload *payload, const guint8 *bytes)
{
    const char *phrase = payload->status == NBT_DONE ? phrase_of(scope, payload->port, bytes, payload->used) : NULL;
    return wmem_strdup_printf(scope, "cut: %s%s%d of %d bytes", phrase != NULL ? phrase : "", phrase != NULL ? ", " : "",
                              payload->length, payload->whole);
}

static const char *says_of(wmem_allocator_t *scope, const struct payload *payload, const guint8 *bytes)
{
    if (payload->phrase != NULL) return payload->phrase;
    return payload->cut ? phrase_of_cut(scope, payload, bytes) : phrase_of(scope, payload->port, bytes, (size_t)payload->length);
}

static void show_phrase(packet_info *pinfo, proto_item *head, proto_tree *tree, const struct payload *payload, const guint8 *bytes)
{
    const char *says;
    if (!phrases_in_info && !proto_field_is_referenced(tree, hf_says)) return;
    says = says_of(pinfo->pool, payload, bytes);
    if (says == NULL) return;
    proto_item_append_text(head, ": %s", says);
    proto_item_set_generated(proto_tree_add_string(tree, hf_says, payload->tvb, payload->start, payload->length, says));
    if (!phrases_in_info) return;
    if (payload->number > 0) {
        col_append_fstr(pinfo->cinfo, COL_INFO, "; %s", says);
    } else {
        col_clear_fence(pinfo->cinfo, COL_INFO);
        col_add_str(pinfo->cinfo, COL_INFO, says);
    }
}

static bool is_refused(const struct payload *payload)
{
    return !payload->cut && payload->status != NBT_DONE && payload->status != NBT_MORE;
}

/* Whether the place of a fault counts in a name's spelling, and not in the payload. */
static bool counts_in_name(guint32 status)
{
    return status == NBT_NAME_NOT_NETBIOS || status == NBT_SOURCE_NOT_NETBIOS || status == NBT_DESTINATION_NOT_NETBIOS;
}

/* The fault, at its byte; where that is past the end, at the last one; where it came with an earlier frame, at what came with this one. */
static void show_refusal(packet_info *pinfo, proto_tree *tree, const struct payload *payload)
{
    const char *words = words_of(pinfo->pool, payload->status);
    bool in_name = counts_in_name(payload->status), placed = payload->at != SIZE_MAX;
    bool marked = placed && !in_name && payload->at >= payload->before;
    int last = MAX(payload->length - 1, 0);
    int start = payload->start + (marked ? (int)MIN(payload->at - payload->before, (size_t)last) : 0);
    int length = marked ? MIN(1, payload->length) : payload->length;
    proto_item *item = proto_tree_add_string(tree, hf_refused, payload->tvb, start, length, words);
    if (placed) {
        const char *of = in_name ? " of the name" : "";
        proto_tree_add_uint(tree, hf_place, payload->tvb, start, length, (guint32)payload->at);
        expert_add_info_format(pinfo, item, &ei_refused, "Refused: %s, at byte %u%s", words, (guint32)payload->at, of);
    } else {
        expert_add_info_format(pinfo, item, &ei_refused, "Refused: %s", words);
    }
}

static void show_what_follows(packet_info *pinfo, proto_tree *tree, const struct payload *payload)
{
    int used = (int)payload->used, follow = payload->length - used;
    proto_item *item;
    if (payload->port == SESSION_SERVICE || payload->cut || payload->status != NBT_DONE || follow <= 0) return;
    item = proto_tree_add_uint(tree, hf_follow, payload->tvb, payload->start + used, follow, (guint32)follow);
    expert_add_info(pinfo, item, &ei_follow);
}

static void show_payload(packet_info *pinfo, proto_tree *top, const struct payload *payload)
{
    const guint8 *bytes = tvb_get_ptr(payload->tvb, payload->start, payload->length);
    const struct fragment *fragment = NULL;
    proto_item *head = proto_tree_add_item(top, proto_nbt, payload->tvb, payload->start, payload->length, ENC_NA);
    proto_tree *tree = proto_item_add_subtree(head, ett_nbt);
    proto_item_set_generated(head);
    if (!payload->cut && payload->status != NBT_MORE) look_at_clock(pinfo);
    if (payload->port == DATAGRAM_SERVICE && !payload->cut) fragment = take_payload(pinfo, payload, bytes);
    count_payload(pinfo, payload, fragment);
    show_phrase(pinfo, head, tree, payload, bytes);
    if (is_refused(payload)) show_refusal(pinfo, tree, payload);
    show_what_follows(pinfo, tree, payload);
    if (fragment != NULL) show_state(pinfo, top, tree, payload, fragment);
}

int show_frame(tvbuff_t *tvb _U_, packet_info *pinfo, proto_tree *tree, void *data _U_)
{
    wmem_array_t *payloads;
    begin_frame(pinfo);
    read_stream_again(pinfo);
    payloads = payloads_of(pinfo);
    for (guint i = 0; payloads != NULL && i < wmem_array_get_count(payloads); i++)
        show_payload(pinfo, tree, wmem_array_index(payloads, i));
    return 0;
}
