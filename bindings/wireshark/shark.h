/* What the files of the plugin share. Wireshark's headers come first, as each of its plugins has them. */
#ifndef NBT_SHARK_H
#define NBT_SHARK_H

#define WS_BUILD_DLL
#include <glib.h>
#include <stdbool.h>
#include <string.h>
#include <epan/expert.h>
#include <epan/packet.h>
#include <ws_version.h>
#include <nbt.h>

/* What is true or false for Wireshark has one byte from Wireshark 4.4 on, where it was an int. */
#if WIRESHARK_VERSION_MAJOR > 4 || (WIRESHARK_VERSION_MAJOR == 4 && WIRESHARK_VERSION_MINOR > 2)
typedef bool wireshark_bool;
#else
typedef gboolean wireshark_bool;
#endif

/* What a later version takes in the place of the packet_info, where a frame depends on another. */
#define MARKED_BY(pinfo) \
    _Generic(&mark_frame_as_depended_upon, void (*)(packet_info *, guint32) : (pinfo), default : (pinfo)->fd)

enum { NAME_SERVICE = 137, DATAGRAM_SERVICE = 138, SESSION_SERVICE = 139 };

/* fields.c: the protocol, and what is registered with it. -------------------------------------------------------------- */

extern int proto_nbt;
extern int hf_says, hf_refused, hf_place, hf_follow, hf_key, hf_state, hf_missing, hf_datagram, hf_fragment, hf_whole_in,
    hf_spoilt_in;
extern gint ett_nbt, ett_fragments;
extern expert_field ei_refused, ei_follow, ei_state, ei_spoilt, ei_missing, ei_names;
extern const char *station_names;       /* preference nbt.names */
extern wireshark_bool phrases_in_info; /* preference nbt.info */
extern wireshark_bool keys_time_out;   /* preference nbt.timer */

/* collect.c: the payloads of the frame that is dissected. -------------------------------------------------------------- */

/* The bytes at the front of which a packet is looked for. */
struct payload {
    guint16 port;        /* one of the three services */
    bool cut;            /* the file has less of it than was sent */
    guint32 number;      /* of its kind in the frame, counted from 0 */
    tvbuff_t *tvb;       /* where it stands; NULL where Wireshark doesn't hand its bytes out again */
    int start, length;   /* in the tvb; what is there */
    int whole;           /* how long it was sent, or 0 where that isn't known */
    guint32 status;      /* of its packet */
    size_t at, used;     /* the place that goes with the status, SIZE_MAX where there is none; the bytes of the packet */
    size_t before;       /* how many of the packet's bytes earlier frames have, of port 139 */
    const char *phrase;  /* what was said of it before, where it isn't all in the tvb; else NULL */
    struct nbt_datagram datagram; /* of port 138, where the status is NBT_DONE */
};

void hand_off_collecting(void);
void collect_from_all_ports(void);
void add_payload(packet_info *pinfo, const struct payload *payload);
wmem_array_t *payloads_of(packet_info *pinfo);

/* What the payload of a service begins with. */
void judge(struct payload *payload, const guint8 *bytes);

/* The phrase of such bytes, in the memory of `scope`; NULL without memory. */
const char *phrase_of(wmem_allocator_t *scope, guint16 port, const guint8 *bytes, size_t length);

/* The words of a status. */
const char *words_of(wmem_allocator_t *scope, guint32 status);

/* stream.c: the packets of a connection to port 139. --------------------------------------------------------------------- */

/* Takes what TCP hands over, from this place of its direction on, and adds the packets as payloads of the frame. */
void read_stream(packet_info *pinfo, tvbuff_t *tvb, guint32 sequence);

/* Adds what the first reading of the frame found, where TCP doesn't hand its bytes over once more. */
void read_stream_again(packet_info *pinfo);

/* station.c: what becomes of the payloads of port 138. ------------------------------------------------------------------- */

/* A fragment, which Wireshark keeps as long as the file is open. */
struct fragment {
    guint32 outcome;         /* one of enum nbt_outcome, or TAKEN_NOT */
    guint32 refusal;         /* at NBT_REFUSED and TAKEN_NOT: the status */
    guint32 frame;           /* its number; 0 where the frame was left out while the file was read */
    guint16 offset, length;  /* of its data in the datagram's */
    bool more;               /* the sender promised that the data goes on */
    struct datagram *datagram;
    struct fragment *next;   /* of the datagram */
    struct fragment *beside; /* an earlier one of the same frame */
    guint8 *data;            /* until the datagram is whole or dropped; or NULL */
};

/* The station refuses to take it in: it is misplaced or too long. */
#define TAKEN_NOT 100

/* What is known of a key from its first fragment on until the clock drops it. */
struct datagram {
    guint64 born;
    const struct fragment *completed_by, *spoilt_by;
    guint32 count;
    guint32 length;                   /* of the whole data */
    struct fragment *first, *last;
    const guint8 *data;               /* of a datagram that came in several fragments and is heard; or NULL */
    const char *missing;              /* its words, when it had so many fragments */
    guint32 missing_at;
};

void begin_station(void);
void end_station(void);

/* Before each frame: the first one that has a time has that from which moments count, and one with the number of the one before
 * says that that was left out. */
void begin_frame(const packet_info *pinfo);

/* Shows the clock the frame's time: a packet came. */
void look_at_clock(const packet_info *pinfo);

/* Takes the payload in where the frame is read for the first time, and says what became of it; NULL where it wasn't taken. */
const struct fragment *take_payload(packet_info *pinfo, const struct payload *payload, const guint8 *bytes);

/* Why no station listens for the names of the preference; NULL where one does. */
const char *fault_of_names(void);

/* The words of what is missing; NULL where nothing is, or where the datagram is spoilt. */
const char *missing_of(struct datagram *datagram);

/* show.c, show_datagram.c: the tree and the columns. ---------------------------------------------------------------------- */

int show_frame(tvbuff_t *tvb, packet_info *pinfo, proto_tree *tree, void *data);
void show_state(packet_info *pinfo, proto_tree *top, proto_tree *tree, const struct payload *payload,
                const struct fragment *fragment);
void hand_off_datagrams(void);

/* statistics.c: -z nbt,tree. --------------------------------------------------------------------------------------------- */

extern const value_string outcomes[];

void register_statistics(void);
void register_tapping(void);
void count_payload(packet_info *pinfo, const struct payload *payload, const struct fragment *fragment);

#endif
