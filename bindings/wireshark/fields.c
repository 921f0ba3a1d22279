/* The protocol, its fields, what it says to experts, and its preferences; and what Wireshark looks for in a plugin: it loads one that was
 * compiled for its own version alone. */
#include "shark.h"
#include <epan/prefs.h>
#include <epan/stats_tree.h>
#if __has_include(<wsutil/plugins.h>)
#include <wsutil/plugins.h>
#endif

int proto_nbt = -1;
int hf_says = -1, hf_refused = -1, hf_place = -1, hf_follow = -1, hf_key = -1, hf_state = -1, hf_missing = -1,
    hf_datagram = -1, hf_fragment = -1, hf_whole_in = -1, hf_spoilt_in = -1;
gint ett_nbt = -1, ett_fragments = -1;
expert_field ei_refused = EI_INIT, ei_follow = EI_INIT, ei_state = EI_INIT, ei_spoilt = EI_INIT, ei_missing = EI_INIT,
             ei_names = EI_INIT;
const char *station_names = "";
wireshark_bool phrases_in_info = FALSE, keys_time_out = TRUE;

static void register_fields(void)
{
    static hf_register_info fields[] = {
        {&hf_says, {"Says", "nbt.says", FT_STRING, BASE_NONE, NULL, 0, "What the packet says, in a phrase", HFILL}},
        {&hf_refused, {"Refused", "nbt.refused", FT_STRING, BASE_NONE, NULL, 0, "Why no packet stands here", HFILL}},
        {&hf_place, {"Place", "nbt.place", FT_UINT32, BASE_DEC, NULL, 0, "The faulty byte, from 0 in the payload", HFILL}},
        {&hf_follow, {"Bytes that follow", "nbt.follow", FT_UINT32, BASE_DEC, NULL, 0, "Behind the packet", HFILL}},
        {&hf_key, {"Key", "nbt.key", FT_STRING, BASE_NONE, NULL, 0, "SOURCE_IP, SOURCE_PORT and DGM_ID", HFILL}},
        {&hf_state, {"State", "nbt.state", FT_STRING, BASE_NONE, NULL, 0, "What became of the payload", HFILL}},
        {&hf_missing, {"Missing", "nbt.missing", FT_STRING, BASE_NONE, NULL, 0, "Bytes that the file lacks", HFILL}},
        {&hf_datagram, {"Datagram", "nbt.datagram", FT_BYTES, BASE_NONE, NULL, 0, "The data of a whole datagram", HFILL}},
        {&hf_fragment, {"Fragment", "nbt.fragment", FT_FRAMENUM, BASE_NONE, NULL, 0, "A fragment's frame", HFILL}},
        {&hf_whole_in, {"Whole in", "nbt.whole_in", FT_FRAMENUM, BASE_NONE, NULL, 0, "The frame that completes it", HFILL}},
        {&hf_spoilt_in, {"Spoilt in", "nbt.spoilt_in", FT_FRAMENUM, BASE_NONE, NULL, 0, "The frame that contradicts", HFILL}},
    };
    static gint *trees[] = {&ett_nbt, &ett_fragments};
    proto_register_field_array(proto_nbt, fields, array_length(fields));
    proto_register_subtree_array(trees, array_length(trees));
}

static void register_expert(void)
{
    static ei_register_info experts[] = {
        {&ei_refused, {"nbt.refused.expert", PI_PROTOCOL, PI_WARN, "Refused", EXPFILL}},
        {&ei_follow, {"nbt.follow.expert", PI_PROTOCOL, PI_NOTE, "Bytes follow the packet", EXPFILL}},
        {&ei_state, {"nbt.state.expert", PI_PROTOCOL, PI_WARN, "Refused by the station", EXPFILL}},
        {&ei_spoilt, {"nbt.spoilt.expert", PI_SEQUENCE, PI_WARN, "Fragments of the datagram contradict each other", EXPFILL}},
        {&ei_missing, {"nbt.missing.expert", PI_SEQUENCE, PI_NOTE, "The datagram is incomplete", EXPFILL}},
        {&ei_names, {"nbt.names.expert", PI_UNDECODED, PI_ERROR, "The names of the preference can't be read", EXPFILL}},
    };
    expert_register_field_array(expert_register_protocol(proto_nbt), experts, array_length(experts));
}

static void register_preferences(void)
{
    module_t *module = prefs_register_protocol(proto_nbt, NULL);
    prefs_register_string_preference(module, "names", "Names of the station",
                                     "As in FRED<20> JOE<00>, one space between two. Without any all datagrams are heard.",
                                     &station_names);
    prefs_register_bool_preference(module, "info", "Phrases in the Info column",
                                   "What nbt says of a packet stands there in the place of what Wireshark says.",
                                   &phrases_in_info);
    prefs_register_bool_preference(module, "timer", "Keys are dropped by the frames' times",
                                   "Each second that begins drops the keys that are two seconds old. Without it none is dropped.",
                                   &keys_time_out);
}

/* Before each file, also where it is read once more. */
static void begin_file(void)
{
    begin_station();
    collect_from_all_ports();
}

static void register_nbt(void)
{
    proto_nbt = proto_register_protocol("NetBIOS over TCP and UDP, by nbt", "nbt", "nbt");
    register_fields();
    register_expert();
    register_preferences();
    register_tapping();
    register_init_routine(begin_file);
    register_cleanup_routine(end_station);
    register_postdissector(create_dissector_handle(show_frame, proto_nbt));
}

static void hand_off_nbt(void)
{
    hand_off_collecting();
    hand_off_datagrams();
}

WS_DLL_PUBLIC_DEF const gchar plugin_version[] = NBT_VERSION;
WS_DLL_PUBLIC_DEF const int plugin_want_major = WIRESHARK_VERSION_MAJOR;
WS_DLL_PUBLIC_DEF const int plugin_want_minor = WIRESHARK_VERSION_MINOR;
WS_DLL_PUBLIC void plugin_register(void);

/* Later versions ask what a plugin is. */
#ifdef WS_PLUGIN_DESC_DISSECTOR
WS_DLL_PUBLIC uint32_t plugin_describe(void);

uint32_t plugin_describe(void)
{
    return WS_PLUGIN_DESC_DISSECTOR;
}
#endif

void plugin_register(void)
{
    static proto_plugin protocol = {register_nbt, hand_off_nbt};
    static tap_plugin statistics = {register_statistics};
    proto_register_plugin(&protocol);
    tap_register_plugin(&statistics);
}
