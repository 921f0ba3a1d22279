/* The payloads of a frame. Wireshark calls for each port a dissector; in the place of its own for NetBIOS stand those of this
 * file, which note the bytes and then call it. So no tree has to be made for frames of other ports, and a payload is found
 * also where Wireshark's dissector makes nothing of it.
 */
#include "shark.h"
#include <epan/dissectors/packet-tcp.h>
#include <epan/proto_data.h>

/* The direct transport over TCP has no session service. */
#define DIRECT_PORT 445
#define UDP_HEADER 8
/* Proto data of a frame, by its keys: the payloads that were found, and what station.c and stream.c keep. */
#define PAYLOADS_KEY 0

static struct service {
    guint16 port;
    const char *table, *filter;
    dissector_t collect;
    const char *name, *description;
    int protocol;
    dissector_handle_t own, theirs;
} services[3];

wmem_array_t *payloads_of(packet_info *pinfo)
{
    return p_get_proto_data(pinfo->pool, pinfo, proto_nbt, PAYLOADS_KEY);
}

void add_payload(packet_info *pinfo, const struct payload *payload)
{
    wmem_array_t *payloads = payloads_of(pinfo);
    struct payload *added;
    if (payloads == NULL) {
        payloads = wmem_array_sized_new(pinfo->pool, sizeof(struct payload), 1);
        p_add_proto_data(pinfo->pool, pinfo, proto_nbt, PAYLOADS_KEY, payloads);
    }
    wmem_array_append(payloads, payload, 1);
    added = wmem_array_index(payloads, wmem_array_get_count(payloads) - 1);
    added->number = wmem_array_get_count(payloads) - 1;
}

const char *words_of(wmem_allocator_t *scope, guint32 status)
{
    guint8 text[64];
    size_t used = 0;
    return nbt_status_text(status, text, sizeof text, &used) == NBT_DONE ? wmem_strndup(scope, (const char *)text, used)
                                                                         : "unknown status";
}

const char *phrase_of(wmem_allocator_t *scope, guint16 port, const guint8 *bytes, size_t length)
{
    guint8 text[NBT_BRIEF_ROOM];
    size_t used = 0;
    return nbt_brief(port, bytes, length, text, sizeof text, &used) == NBT_DONE
               ? wmem_strndup(scope, (const char *)text, used)
               : NULL;
}

void judge(struct payload *payload, const guint8 *bytes)
{
    size_t length = (size_t)payload->length;
    struct nbt_service_header header;
    struct nbt_session session;
    payload->at = SIZE_MAX;
    payload->used = length;
    switch (payload->port) {
    case NAME_SERVICE:
        payload->status = nbt_service_read(bytes, length, &header, &payload->at);
        if (payload->status == NBT_DONE) payload->used = header.used;
        break;
    case DATAGRAM_SERVICE:
        payload->status = nbt_datagram_read(bytes, length, &payload->datagram, &payload->at);
        if (payload->status == NBT_DONE) payload->used = payload->datagram.used;
        break;
    default:
        payload->status = nbt_session_read(bytes, length, &session, &payload->at);
        if (payload->status == NBT_DONE) payload->used = session.used;
    }
}

/* How many bytes the header of UDP, which stands before the payload, says that it has; 0 where none is there. */
static int length_by_header(tvbuff_t *tvb, const packet_info *pinfo)
{
    tvbuff_t *source = tvb_get_ds_tvb(tvb);
    int header = tvb_raw_offset(tvb) - UDP_HEADER;
    if (header < 0 || pinfo->ptype != PT_UDP || !tvb_bytes_exist(source, header, UDP_HEADER)) return 0;
    if (tvb_get_ntohs(source, header) != pinfo->srcport || tvb_get_ntohs(source, header + 2) != pinfo->destport) return 0;
    return MAX(tvb_get_ntohs(source, header + 4) - UDP_HEADER, 0);
}

static int collect_datagram(const struct service *service, tvbuff_t *tvb, packet_info *pinfo, proto_tree *tree, void *data)
{
    if (!pinfo->flags.in_error_pkt) {
        int length = (int)tvb_captured_length(tvb);
        int whole = MAX((int)tvb_reported_length(tvb), length_by_header(tvb, pinfo));
        struct payload payload = {
            .port = service->port, .cut = length < whole, .tvb = tvb, .length = length, .whole = whole};
        judge(&payload, tvb_get_ptr(tvb, 0, length));
        add_payload(pinfo, &payload);
    }
    return call_dissector_only(service->theirs, tvb, pinfo, tree, data);
}

static int collect_name(tvbuff_t *tvb, packet_info *pinfo, proto_tree *tree, void *data)
{
    return collect_datagram(&services[0], tvb, pinfo, tree, data);
}

static int collect_fragment(tvbuff_t *tvb, packet_info *pinfo, proto_tree *tree, void *data)
{
    return collect_datagram(&services[1], tvb, pinfo, tree, data);
}

static int collect_session(tvbuff_t *tvb, packet_info *pinfo, proto_tree *tree, void *data)
{
    const struct tcpinfo *segment = data;
    if (segment != NULL && !pinfo->flags.in_error_pkt) read_stream(pinfo, tvb, segment->seq);
    /* TCP joins segments for the dissector that it calls; here for the one behind it. */
    pinfo->can_desegment = pinfo->saved_can_desegment;
    return call_dissector_only(services[2].theirs, tvb, pinfo, tree, data);
}

static void take_the_place(struct service *service)
{
    service->protocol = proto_get_id_by_filter_name(service->filter);
    service->theirs = dissector_get_uint_handle(find_dissector_table(service->table), service->port);
    if (service->theirs == NULL || dissector_handle_get_protocol_index(service->theirs) != service->protocol) {
        service->theirs = NULL;
        return;
    }
    service->own = create_dissector_handle_with_name_and_description(service->collect, -1, service->name, service->description);
    dissector_add_uint(service->table, service->port, service->own);
}

void hand_off_collecting(void)
{
    static const struct service wanted[3] = {
        {.port = NAME_SERVICE, .table = "udp.port", .filter = "nbns", .collect = collect_name, .name = "nbt_nbns",
         .description = "NBNS, and what nbt says"},
        {.port = DATAGRAM_SERVICE, .table = "udp.port", .filter = "nbdgm", .collect = collect_fragment, .name = "nbt_nbdgm",
         .description = "NBDS, and what nbt says"},
        {.port = SESSION_SERVICE, .table = "tcp.port", .filter = "nbss", .collect = collect_session, .name = "nbt_nbss",
         .description = "NBSS, and what nbt says"},
    };
    memcpy(services, wanted, sizeof services);
    for (int i = 0; i < 3; i++) take_the_place(&services[i]);
}

/* Notes a port at which Wireshark's own dissector stands. */
static void note_port(const gchar *table _U_, ftenum_t type _U_, gpointer key, gpointer value, gpointer found)
{
    dissector_handle_t handle = dtbl_entry_get_handle(value);
    if (handle != NULL && GPOINTER_TO_UINT(key) != DIRECT_PORT) {
        for (int i = 0; i < 3; i++) {
            if (services[i].theirs == handle) g_array_append_val(((GArray **)found)[i], key);
        }
    }
}

/* Before a file is read: also the ports that preferences and Decode As give to Wireshark's dissectors. */
void collect_from_all_ports(void)
{
    GArray *found[3];
    for (int i = 0; i < 3; i++) found[i] = g_array_new(FALSE, FALSE, sizeof(gpointer));
    dissector_table_foreach("udp.port", note_port, found);
    dissector_table_foreach("tcp.port", note_port, found);
    for (int i = 0; i < 3; i++) {
        for (guint j = 0; j < found[i]->len; j++)
            dissector_change_uint(services[i].table, GPOINTER_TO_UINT(g_array_index(found[i], gpointer, j)), services[i].own);
        g_array_free(found[i], TRUE);
    }
}
