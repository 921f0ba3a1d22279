/* What becomes of the payloads of port 138: a station of the library takes each fragment once, in the order of the frames, and is
 * shown the clock as `nbt replay` is by the ticks of `nbt-look --lines`: each second that begins since the file's first frame. The station
 * judges that fragments agree, and when they are all there; here their data is put together, and which bytes are missing of a datagram
 * that the file leaves incomplete.
 */
#include "shark.h"
#include <epan/proto_data.h>

/* How long a key is kept, and what the clock shows, in milliseconds. */
#define KEPT 2000
#define SECOND 1000
#define DATAGRAM_PORT 138
/* Proto data of a frame: from this key on the fragments, by the numbers of their payloads. */
#define FRAGMENTS_KEY 16
/* How many runs of missing bytes are named; of more it is said how many they are. */
#define MOST_RUNS 16

static struct nbt_station station;
static GHashTable *known;      /* the datagrams of the keys that the station holds */
static bool all_are_heard;     /* no name is asked for */
static const char *names_fault;
static guint8 *room;
static guint64 second;         /* the last one that the clock was shown */
static bool timed;             /* a frame had a time */
static nstime_t first_time;    /* of the first one that had */
static guint64 moment;         /* of the frame that was read last, in milliseconds since then; 0 before it */
static guint32 latest_number;  /* of the frame that was read last for the first time; 0 before the first */
static struct fragment *latest; /* those of that frame */

static void keep_data(struct fragment *fragment, const guint8 *data)
{
    if (fragment->length > 0) fragment->data = g_memdup2(data, fragment->length);
}

static void drop_data(struct datagram *datagram)
{
    struct fragment *each;
    for (each = datagram->first; each != NULL; each = each->next) g_clear_pointer(&each->data, g_free);
}

static guint32 end_of(const struct fragment *fragment)
{
    return (guint32)fragment->offset + fragment->length;
}

static void put_together(struct datagram *datagram)
{
    struct fragment *each;
    guint8 *data;
    for (each = datagram->first; each != NULL; each = each->next) datagram->length = MAX(datagram->length, end_of(each));
    data = wmem_alloc(wmem_file_scope(), MAX(datagram->length, 1));
    for (each = datagram->first; each != NULL; each = each->next) {
        if (each->data != NULL) memcpy(data + each->offset, each->data, each->length);
    }
    datagram->data = data;
}

/* A run of bytes in the words of nbt-look: how many from which on. */
static void append_run(wmem_strbuf_t *words, guint32 from, guint32 bytes)
{
    if (wmem_strbuf_get_len(words) > 0) wmem_strbuf_append(words, ", ");
    wmem_strbuf_append_printf(words, "%u byte%s from byte %u on", bytes, bytes == 1 ? "" : "s", from);
}

static gint by_offset(gconstpointer one, gconstpointer other)
{
    const struct fragment *const *first = one, *const *second = other;
    return (gint)(*first)->offset - (gint)(*second)->offset;
}

/* The fragments by their offsets. */
static GPtrArray *sorted(const struct datagram *datagram)
{
    GPtrArray *fragments = g_ptr_array_sized_new(datagram->count);
    struct fragment *each;
    for (each = datagram->first; each != NULL; each = each->next) g_ptr_array_add(fragments, each);
    g_ptr_array_sort(fragments, by_offset);
    return fragments;
}

/* A fragment without data splits no gap: it says something where it is the end alone. */
static const char *words_of_gaps(const struct datagram *datagram)
{
    wmem_strbuf_t *words = wmem_strbuf_new(wmem_file_scope(), "");
    GPtrArray *fragments = sorted(datagram);
    guint32 due = 0, gaps = 0, i;
    bool ends = false;
    for (i = 0; i < fragments->len; i++) {
        const struct fragment *each = g_ptr_array_index(fragments, i);
        if (each->length == 0 && each->more) continue;
        if (each->offset > due && gaps++ < MOST_RUNS) append_run(words, due, each->offset - due);
        due = MAX(due, end_of(each));
        ends = ends || !each->more;
    }
    if (gaps > MOST_RUNS) wmem_strbuf_append_printf(words, ", %u more", gaps - MOST_RUNS);
    if (!ends) wmem_strbuf_append_printf(words, "%sall from byte %u on", gaps > 0 ? ", " : "", due);
    g_ptr_array_free(fragments, TRUE);
    return wmem_strbuf_finalize(words);
}

const char *missing_of(struct datagram *datagram)
{
    if (datagram->completed_by != NULL || datagram->spoilt_by != NULL) return NULL;
    if (datagram->missing == NULL || datagram->missing_at != datagram->count) {
        datagram->missing = words_of_gaps(datagram);
        datagram->missing_at = datagram->count;
    }
    return datagram->missing;
}

const char *fault_of_names(void)
{
    return names_fault;
}

static guint32 create(const char *names, size_t *at)
{
    return nbt_station_create((const guint8 *)names, strlen(names), 0, DATAGRAM_PORT, UINT32_MAX, UINT32_MAX, &station.at, at);
}

static void forget(gpointer datagram)
{
    drop_data(datagram);
}

void begin_station(void)
{
    const char *names = station_names != NULL ? station_names : "";
    size_t at = SIZE_MAX;
    guint32 status = create(names, &at);
    if (status != NBT_DONE) {
        const char *place = at == SIZE_MAX ? "" : wmem_strdup_printf(wmem_file_scope(), ", at character %u", (guint32)at);
        names_fault = wmem_strdup_printf(wmem_file_scope(), "nbt.names: %s%s", words_of(wmem_file_scope(), status), place);
        create("", &at);
    }
    all_are_heard = *names == 0 || names_fault != NULL;
    known = g_hash_table_new_full(g_int64_hash, g_int64_equal, g_free, forget);
    room = g_malloc(NBT_TAKE_ROOM);
    second = 0;
    timed = false;
    moment = 0;
    latest_number = 0;
    latest = NULL;
}

void end_station(void)
{
    nbt_station_free(station);
    station.at = NULL;
    g_clear_pointer(&known, g_hash_table_destroy);
    g_clear_pointer(&room, g_free);
    names_fault = NULL;
}

/* Where a frame has no time that of the frame before counts. */
static void read_time(const packet_info *pinfo)
{
    nstime_t since;
    if ((pinfo->presence_flags & PINFO_HAS_TS) == 0) return;
    if (!timed) first_time = pinfo->abs_ts;
    timed = true;
    nstime_delta(&since, &pinfo->abs_ts, &first_time);
    moment = since.secs < 0 || since.nsecs < 0 ? 0 : (guint64)since.secs * 1000 + (guint64)since.nsecs / 1000000;
}

void begin_frame(const packet_info *pinfo)
{
    if (PINFO_FD_VISITED(pinfo)) return;
    read_time(pinfo);
    for (; pinfo->num == latest_number && latest != NULL; latest = latest->beside) latest->frame = 0;
    latest_number = pinfo->num;
    latest = NULL;
}

static gboolean is_dropped(gpointer key _U_, gpointer datagram, gpointer now)
{
    return ((struct datagram *)datagram)->born + KEPT <= *(guint64 *)now;
}

void look_at_clock(const packet_info *pinfo)
{
    guint32 dropped = 0;
    guint64 now = moment / SECOND * SECOND;
    if (PINFO_FD_VISITED(pinfo) || !keys_time_out || now <= second || known == NULL) return;
    second = now;
    if (nbt_station_tick(&station, now, &dropped) == NBT_DONE && dropped > 0)
        g_hash_table_foreach_remove(known, is_dropped, &now);
}

static struct datagram *datagram_of(const struct nbt_taken *taken)
{
    gint64 key = (gint64)((guint64)taken->address << 32 | (guint64)taken->port << 16 | taken->identifier);
    struct datagram *datagram = g_hash_table_lookup(known, &key);
    if (datagram == NULL) {
        gint64 *kept = g_new(gint64, 1);
        *kept = key;
        datagram = wmem_new0(wmem_file_scope(), struct datagram);
        datagram->born = moment;
        g_hash_table_insert(known, kept, datagram);
    }
    return datagram;
}

static void append(struct datagram *datagram, struct fragment *fragment)
{
    fragment->datagram = datagram;
    if (datagram->last != NULL) datagram->last->next = fragment;
    else datagram->first = fragment;
    datagram->last = fragment;
    datagram->count++;
}

/* Enters a fragment that the station took. */
static void enter(struct fragment *fragment, const struct nbt_taken *taken, const struct nbt_datagram *packet, const guint8 *bytes)
{
    struct datagram *datagram = datagram_of(taken);
    append(datagram, fragment);
    fragment->offset = packet->offset;
    fragment->length = (guint16)packet->data_length;
    fragment->more = (packet->flags & 1) != 0;
    if (taken->outcome == NBT_SPOILT) {
        datagram->spoilt_by = fragment;
        drop_data(datagram);
        return;
    }
    if (datagram->completed_by != NULL || datagram->spoilt_by != NULL) return;
    if (taken->outcome != NBT_KEPT) datagram->completed_by = fragment;
    if (taken->outcome == NBT_UNHEARD && all_are_heard) fragment->outcome = NBT_DELIVERED;
    if (taken->outcome == NBT_KEPT || datagram->count > 1) keep_data(fragment, bytes + packet->data);
    if (datagram->completed_by == NULL) return;
    if (fragment->outcome == NBT_DELIVERED && datagram->count > 1) put_together(datagram);
    drop_data(datagram);
}

const struct fragment *take_payload(packet_info *pinfo, const struct payload *payload, const guint8 *bytes)
{
    guint32 key = FRAGMENTS_KEY + payload->number;
    struct nbt_taken taken;
    struct fragment *fragment;
    size_t used = 0;
    if (PINFO_FD_VISITED(pinfo) || known == NULL)
        return p_get_proto_data(wmem_file_scope(), pinfo, proto_nbt, key);
    fragment = wmem_new0(wmem_file_scope(), struct fragment);
    fragment->frame = pinfo->num;
    fragment->beside = latest;
    latest = fragment;
    fragment->refusal = nbt_station_take(&station, moment, bytes, (size_t)payload->length, &taken, room, NBT_TAKE_ROOM, &used);
    if (fragment->refusal != NBT_DONE) {
        fragment->outcome = TAKEN_NOT;
    } else {
        fragment->outcome = taken.outcome;
        fragment->refusal = taken.refusal;
        if (taken.outcome <= NBT_UNHEARD && payload->status == NBT_DONE)
            enter(fragment, &taken, &payload->datagram, bytes);
    }
    p_add_proto_data(wmem_file_scope(), pinfo, proto_nbt, key, fragment);
    return fragment;
}
