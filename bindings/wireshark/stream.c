/* The packets of connections to port 139, by the numbers of their bytes. Wireshark's own dissector waits for as many bytes as
 * a header says, also where the session service has no packet of that length, and takes what it can't read for the rest of an
 * earlier packet. Here each direction knows where its next packet begins.
 *
 * After bytes at which no packet begins, or missing ones, a direction has no such place. It is found again where the packets of
 * a segment fill it, of which the first has a body (our choice).
 */
#include "shark.h"
#include <epan/conversation.h>
#include <epan/proto_data.h>

/* Proto data of a frame: what its first reading found, and which of that TCP handed over in this pass. */
#define READINGS_KEY 1
#define SEEN_KEY 2

/* One direction of a connection. */
struct direction {
    bool begun, lost;
    guint32 first;      /* the number of the first byte that was read since it was found */
    guint32 next;       /* that of the byte at which the next packet begins */
    GByteArray *held;   /* the bytes from there on, of a packet whose rest hasn't come */
};

struct connection {
    struct direction ways[2];
};

/* A packet that was found. */
struct found {
    int start, length;   /* in what TCP handed over; the part that is there */
    int before;          /* how many bytes of it earlier frames have */
    int raw;             /* where that stands in the frame, or -1 where the frame hasn't its bytes */
    guint32 status;
    guint32 at, used;    /* UINT32_MAX where there is no place */
    const char *phrase;  /* unless the packet is all there */
    struct found *next;
};

/* What one call of TCP gave. */
struct reading {
    guint32 sequence;
    struct found *found;
    struct reading *next;
};

static wireshark_bool give_back(wmem_allocator_t *scope _U_, wmem_cb_event_t event _U_, gpointer data)
{
    struct connection *connection = data;
    for (int i = 0; i < 2; i++) {
        if (connection->ways[i].held != NULL) g_byte_array_free(connection->ways[i].held, TRUE);
    }
    return FALSE;
}

static struct direction *direction_of(packet_info *pinfo)
{
    conversation_t *conversation = find_or_create_conversation(pinfo);
    struct connection *connection = conversation_get_proto_data(conversation, proto_nbt);
    int order = cmp_address(&pinfo->src, &pinfo->dst);
    if (connection == NULL) {
        connection = wmem_new0(wmem_file_scope(), struct connection);
        wmem_register_callback(wmem_file_scope(), give_back, connection);
        conversation_add_proto_data(conversation, proto_nbt, connection);
    }
    return &connection->ways[order != 0 ? order > 0 : pinfo->srcport > pinfo->destport];
}

static void hold(struct direction *way, const guint8 *bytes, size_t length)
{
    if (length == 0 && way->held == NULL) return;
    if (way->held == NULL) way->held = g_byte_array_new();
    if (length == 0 || bytes < way->held->data || bytes >= way->held->data + way->held->len) {
        g_byte_array_set_size(way->held, 0);
        g_byte_array_append(way->held, bytes, (guint)length);
    } else {
        g_byte_array_remove_range(way->held, 0, way->held->len - (guint)length);
    }
}

/* The bytes at hand: `earlier` of them came with earlier frames. */
struct bytes {
    const guint8 *data;
    size_t length, earlier;
    bool begun;           /* an earlier frame told how much the packet at their front lacks */
    int base;             /* where what came with this frame begins, in what TCP handed over */
};

static struct found *new_found(const struct bytes *bytes, size_t offset, const struct payload *judged)
{
    struct found *found = wmem_new0(wmem_file_scope(), struct found);
    size_t end = judged->status == NBT_DONE ? offset + judged->used : bytes->length;
    size_t start = MAX(offset, bytes->earlier);
    found->start = bytes->base + (int)(start - bytes->earlier);
    found->length = (int)(end - MIN(start, end));
    found->before = (int)(start - offset);
    found->status = judged->status;
    found->at = judged->at == SIZE_MAX ? UINT32_MAX : (guint32)judged->at;
    found->used = (guint32)judged->used;
    found->raw = -1;
    if (offset < bytes->earlier || judged->status != NBT_DONE)
        found->phrase = phrase_of(wmem_file_scope(), SESSION_SERVICE, bytes->data + offset, end - offset);
    return found;
}

/* Finds the packets of these bytes, the first of which stands at their front, and answers where the last one ends. */
static size_t find_packets(struct direction *way, const struct bytes *bytes, struct found **last)
{
    size_t offset = 0;
    while (offset < bytes->length) {
        struct payload judged = {.port = SESSION_SERVICE, .length = (int)(bytes->length - offset)};
        judge(&judged, bytes->data + offset);
        if (judged.status != NBT_MORE || offset > 0 || !bytes->begun) {
            *last = new_found(bytes, offset, &judged);
            last = &(*last)->next;
        }
        way->lost = judged.status != NBT_DONE && judged.status != NBT_MORE;
        if (judged.status != NBT_DONE) break;
        offset += judged.used;
    }
    return offset;
}

/* Whether packets fill these bytes, of which the first has a body. */
static bool is_filled(const guint8 *bytes, size_t length)
{
    struct nbt_session packet;
    size_t at, offset = 0;
    while (offset < length) {
        if (nbt_session_read(bytes + offset, length - offset, &packet, &at) != NBT_DONE) return false;
        if (offset == 0 && packet.body_length == 0) return false;
        offset += packet.used;
    }
    return length > 0;
}

/* Reads bytes that don't continue the direction: a place at which a packet begins may be found in them. */
static struct found *read_anew(struct direction *way, const struct bytes *bytes, guint32 sequence)
{
    struct found *found = NULL;
    if (way->lost && (gint32)(sequence - way->next) < 0) return NULL;
    if (!is_filled(bytes->data, bytes->length)) return NULL;
    if (way->lost || (gint32)(sequence - way->next) > 0) {
        way->first = sequence;
        way->next = sequence + (guint32)bytes->length;
        hold(way, NULL, 0);
    }
    find_packets(way, bytes, &found);
    return found;
}

/* Reads bytes that follow those that are held; `known` of them stand at the front once more. */
static struct found *read_on(struct direction *way, const guint8 *data, size_t length, size_t known)
{
    struct found *found = NULL;
    struct bytes bytes = {.earlier = way->held->len, .begun = true, .base = (int)known};
    size_t end;
    g_byte_array_append(way->held, data + known, (guint)(length - known));
    bytes.data = way->held->data;
    bytes.length = way->held->len;
    end = find_packets(way, &bytes, &found);
    way->next += (guint32)end;
    hold(way, bytes.data + end, bytes.length - end);
    return found;
}

/* Reads what TCP handed over, from this number on. Of bytes that came before the values that came first count. */
static struct found *read_bytes(struct direction *way, const guint8 *data, size_t length, guint32 sequence)
{
    struct bytes bytes = {.data = data, .length = length};
    struct found *found = NULL;
    gint32 before = (gint32)(way->next - sequence);
    size_t held = way->held != NULL ? way->held->len : 0, end;
    gint64 known;
    if (!way->begun) {
        way->begun = true;
        way->first = way->next = sequence;
        before = 0;
    }
    known = (gint64)held + before;
    if (way->lost || known < 0 || (gint32)(sequence + (guint32)length - way->first) <= 0)
        return read_anew(way, &bytes, sequence);
    if ((gint64)length <= known) return NULL;
    if (before < 0 || (held > 0 && memcmp(data + before, way->held->data, held) != 0))
        return read_on(way, data, length, (size_t)known);
    bytes.data += before;
    bytes.length -= (size_t)before;
    bytes.begun = held > 0;
    bytes.base = before;
    end = find_packets(way, &bytes, &found);
    way->next += (guint32)end;
    hold(way, bytes.data + end, bytes.length - end);
    return found;
}

static tvbuff_t *frame_of(const packet_info *pinfo)
{
    return get_data_source_tvb(pinfo->data_src->data);
}

/* Notes where in the frame what was found stands. Of what stands elsewhere the phrase is kept: TCP may not join it in later passes. */
static void note_places(const packet_info *pinfo, tvbuff_t *tvb, struct found *found)
{
    bool in_frame = tvb_get_ds_tvb(tvb) == tvb_get_ds_tvb(frame_of(pinfo));
    for (; found != NULL; found = found->next) {
        if (in_frame)
            found->raw = tvb_raw_offset(tvb) + found->start;
        else if (found->phrase == NULL)
            found->phrase = phrase_of(wmem_file_scope(), SESSION_SERVICE, tvb_get_ptr(tvb, found->start, found->length),
                                      (size_t)found->length);
    }
}

/* Adds what was found, with its bytes in the frame, or else in what TCP joined. */
static void add_found(packet_info *pinfo, tvbuff_t *frame, tvbuff_t *joined, const struct found *found)
{
    for (; found != NULL; found = found->next) {
        bool in_frame = found->raw >= 0 && tvb_bytes_exist(frame, found->raw, found->length);
        bool is_joined = !in_frame && joined != NULL && tvb_bytes_exist(joined, found->start, found->length);
        struct payload payload = {.port = SESSION_SERVICE, .status = found->status, .used = found->used, .phrase = found->phrase,
                                  .at = found->at == UINT32_MAX ? SIZE_MAX : found->at, .before = (size_t)found->before,
                                  .tvb = is_joined ? joined : frame,
                                  .start = in_frame ? found->raw : is_joined ? found->start : 0,
                                  .length = in_frame || is_joined ? found->length : 0};
        add_payload(pinfo, &payload);
    }
}

/* Keeps what a call of TCP gave, as the last one of the frame. */
static void keep(packet_info *pinfo, guint32 sequence, struct found *found)
{
    struct reading *reading = wmem_new0(wmem_file_scope(), struct reading);
    struct reading *earlier = p_get_proto_data(wmem_file_scope(), pinfo, proto_nbt, READINGS_KEY);
    reading->sequence = sequence;
    reading->found = found;
    if (earlier == NULL) {
        p_add_proto_data(wmem_file_scope(), pinfo, proto_nbt, READINGS_KEY, reading);
        return;
    }
    while (earlier->next != NULL) earlier = earlier->next;
    earlier->next = reading;
}

/* What was kept of the call with this number, and that it was made in this pass too. */
static struct found *seen_again(packet_info *pinfo, guint32 sequence)
{
    wmem_list_t *seen = p_get_proto_data(pinfo->pool, pinfo, proto_nbt, SEEN_KEY);
    struct reading *reading = p_get_proto_data(wmem_file_scope(), pinfo, proto_nbt, READINGS_KEY);
    if (seen == NULL) {
        seen = wmem_list_new(pinfo->pool);
        p_add_proto_data(pinfo->pool, pinfo, proto_nbt, SEEN_KEY, seen);
    }
    for (; reading != NULL; reading = reading->next) {
        if (reading->sequence != sequence || wmem_list_find(seen, reading) != NULL) continue;
        wmem_list_append(seen, reading);
        return reading->found;
    }
    return NULL;
}

void read_stream(packet_info *pinfo, tvbuff_t *tvb, guint32 sequence)
{
    struct found *found;
    if (PINFO_FD_VISITED(pinfo)) {
        found = seen_again(pinfo, sequence);
    } else {
        size_t length = tvb_captured_length(tvb);
        found = read_bytes(direction_of(pinfo), tvb_get_ptr(tvb, 0, (int)length), length, sequence);
        if (found != NULL) {
            note_places(pinfo, tvb, found);
            keep(pinfo, sequence, found);
        }
    }
    add_found(pinfo, frame_of(pinfo), tvb, found);
}

void read_stream_again(packet_info *pinfo)
{
    struct reading *reading = p_get_proto_data(wmem_file_scope(), pinfo, proto_nbt, READINGS_KEY);
    wmem_list_t *seen;
    if (reading == NULL || !PINFO_FD_VISITED(pinfo)) return;
    seen = p_get_proto_data(pinfo->pool, pinfo, proto_nbt, SEEN_KEY);
    for (; reading != NULL; reading = reading->next) {
        if (seen == NULL || wmem_list_find(seen, reading) == NULL) add_found(pinfo, frame_of(pinfo), NULL, reading->found);
    }
}
