/* nbt.h: NetBIOS packets over TCP and UDP (RFC 1001, RFC 1002), for callers in C.
 *
 * Link with -lnbt: libnbt.so, or libnbt.a, which stands on the C library alone. The calls are in the form of C11; any
 * language that can call C can call them.
 *
 * Statuses. Each call answers one number of enum nbt_status: NBT_DONE, or why it did nothing. A number stands for one
 * thing, in all versions; nbt_status_text has its words.
 *
 * Buffers. A buffer is a pointer and then its length in bytes. Where the length is 0 the pointer may be any, null too: an
 * input is then empty, and an output has no room. No other pointer is null, and no length passes the bytes that stand there,
 * so none is SIZE_MAX. The buffers and numbers that one call writes overlap nothing else of that call; its inputs may be one
 * another's. The library keeps no pointer to them.
 *
 * Output goes to the front of `into`, without a byte of zero after it. At NBT_DONE `*used` is how many bytes were
 * written, and the bytes after them are as they were. At NBT_NO_ROOM `*used` is how many are wanted, more than
 * `into_length`, and `into` is as it was: call again with as many. At any other status nothing is written but `*at`.
 *
 * `*at` is where the fault stands, in bytes from the start of the input that has it, counted from 0. It is written at
 * those statuses alone whose line below says what it is.
 *
 * Memory is taken by malloc and realloc, and each call gives back by free what it took, but for what a station keeps.
 * NBT_NO_MEMORY changes nothing. The calls may be made from any thread at any time, those on one station one at a time,
 * but not from a signal handler, nor in the forked child of a process with threads.
 *
 * No call wants more than NBT_STACK bytes of the stack. A thread that has fewer ends by a signal.
 *
 * On x86-64 the code is for processors with the features of x86-64-v2, as those since 2009 have them; nothing checks that.
 *
 * Names as texts are written as in FRED<20> or FRED<20>.NETBIOS.COM (our choice): the characters of the name, its
 * sixteenth byte as two hexadecimal digits between < and >, and the labels of its scope, each after a full stop. A byte
 * that isn't one of the plain ones is a backslash and two hexadecimal digits. Texts are bytes, not ended by a zero.
 *
 * Addresses are numbers: 10.0.0.5 is 0x0a000005. All numbers have the order of bytes of the machine.
 */
#ifndef NBT_H
#define NBT_H

#include <stdbool.h>
#include <stddef.h>
#include <stdint.h>

#ifdef __cplusplus
extern "C" {
#endif

enum nbt_status {
    NBT_DONE = 0,
    NBT_NO_ROOM = 1,   /* the output is longer than its buffer; *used: how many bytes it has */
    NBT_NO_MEMORY = 2, /* malloc refused */

    /* A text is no name's. */
    NBT_BAD_TEXT = 10,             /* it hasn't the form; *at: how many bytes at its front some name begins with */
    NBT_LONG_TEXT = 11,            /* a name of more than 15 characters, a label of more than 63, or too long a scope */
    NBT_SOURCE_BAD_TEXT = 12,      /* as NBT_BAD_TEXT, of the source's text; *at counts in it */
    NBT_SOURCE_LONG_TEXT = 13,     /* as NBT_LONG_TEXT, of the source's text */
    NBT_DESTINATION_BAD_TEXT = 14, /* as NBT_BAD_TEXT, of the destination's text; *at counts in it */
    NBT_DESTINATION_LONG_TEXT = 15, /* as NBT_LONG_TEXT, of the destination's text */

    /* A name can't be read in a packet or a spelling (RFC 1002 section 4.1). */
    NBT_NAME_TRUNCATED = 20,       /* it ends too early; *at: where */
    NBT_NAME_RESERVED_LABEL = 21,  /* a length byte begins with the bits 01 or 10; *at: where it stands */
    NBT_NAME_POINTER = 22,         /* a pointer stands where none may; *at: where */
    NBT_NAME_LONG = 23,            /* a label makes the spelling longer than 255 bytes; *at: where it stands */
    NBT_NAME_NOT_NETBIOS = 24,     /* labels that no NetBIOS name has; *at: a place in their spelling. In a payload in which the
                                    * name has no pointer, byte *at after the one where the name begins: 4 for the first name of
                                    * a session request, 14 for the source of a datagram, 10 for the name of a query of port
                                    * 138; a second name begins after the zero byte of the first */
    NBT_NAME_TRAILING_BYTES = 25,  /* bytes after the spelling; *at: where they begin */
    NBT_NAME_BAD_POINTER = 26,     /* a pointer that doesn't go back; *at: where; of names of the name service alone */

    /* The source's name in a datagram packet; as those of 20 to 26. */
    NBT_SOURCE_TRUNCATED = 30,
    NBT_SOURCE_RESERVED_LABEL = 31,
    NBT_SOURCE_POINTER = 32,
    NBT_SOURCE_LONG = 33,
    NBT_SOURCE_NOT_NETBIOS = 34,
    NBT_SOURCE_BAD_POINTER = 36, /* no call of this version answers it */

    /* The destination's name in a datagram packet; as those of 20 to 26. */
    NBT_DESTINATION_TRUNCATED = 40,
    NBT_DESTINATION_RESERVED_LABEL = 41,
    NBT_DESTINATION_POINTER = 42,
    NBT_DESTINATION_LONG = 43,
    NBT_DESTINATION_NOT_NETBIOS = 44,
    NBT_DESTINATION_BAD_POINTER = 46, /* no call of this version answers it */

    /* A packet. */
    NBT_TRUNCATED = 50,      /* the payload ends inside the packet; *at: where it ends */
    NBT_UNKNOWN_TYPE = 51,   /* no packet has this type */
    NBT_MORE = 52,           /* the packet isn't there whole yet; *at: how many bytes are missing, at least */
    NBT_RESERVED_FLAGS = 53, /* a flag that has to be zero is set (RFC 1002 section 4.3.1) */
    NBT_BAD_LENGTH = 54,     /* no packet of this type has a body of this length */
    NBT_TRAILING_BYTES = 55, /* bytes after the names of a session request; *at: where they begin */
    NBT_NAME_RDATA = 56,     /* the name in RDATA of type NS ends elsewhere than the RDATA; *at: where the RDATA begins */
    NBT_NO_ITEM = 57,        /* the header counts fewer questions and records */
    NBT_OTHER_RDATA = 58,    /* RDATA of another type, or not of the form that its type has */
    NBT_NO_PART = 59,        /* RDATA has fewer parts; *at: how many */

    /* What was asked to be written. */
    NBT_UNKNOWN_REQUEST = 60, /* no number of enum nbt_request */
    NBT_ZERO_PIECE = 61,      /* pieces of no bytes */
    NBT_LONG_DATA = 62,       /* the data passes 65,535 bytes, or a packet of it does */

    /* A saved table; of two, the first. */
    NBT_TABLE_BAD_MAGIC = 70,     /* it begins with neither NBT2 nor NBT1 */
    NBT_TABLE_TRUNCATED = 71,     /* it ends before or inside a field that has to follow */
    NBT_TABLE_NOT_CANONICAL = 72, /* no saved table has there what it has; *at: where */
    NBT_TABLE_LONG = 73,          /* a datagram longer than the longest; no call of this version answers it */
    NBT_TABLE_FULL_SOURCE = 74,   /* more keys of one address than may be held */
    NBT_TABLE_FULL = 75,          /* more keys than may be held in all */

    /* The second of two saved tables; as those of 70 to 75. */
    NBT_SECOND_BAD_MAGIC = 80,
    NBT_SECOND_TRUNCATED = 81,
    NBT_SECOND_NOT_CANONICAL = 82, /* *at counts in the second */
    NBT_SECOND_LONG = 83, /* no call of this version answers it */
    NBT_SECOND_FULL_SOURCE = 84,
    NBT_SECOND_FULL = 85,

    /* A table, and the fragment or the table that it doesn't take in. */
    NBT_MISPLACED_FIRST = 90, /* a fragment has the flag 0x02 at an offset other than 0, or lacks it at 0 */
    NBT_LONG = 91,            /* a fragment reaches past the longest datagram, 65,535 bytes */
    NBT_FULL_SOURCE = 92,     /* as many keys of the address are held as may be, and a further one is new */
    NBT_FULL = 93,            /* as many keys are held as may be in all, and a further one is new */

    /* A station, and its names. */
    NBT_NAME_PRESENT = 100,   /* a name stands there twice; *at: where its second text begins */
    NBT_TOO_MANY_NAMES = 101, /* more than NBT_MOST_NAMES names; *at: where the text of the first of the others begins */
    NBT_NO_STATION = 102,     /* the station is none */

    /* A part of a packet. */
    NBT_OTHER_TYPE = 110, /* the packet stands, but its type isn't the one that has the part */

    /* A line of a capture. */
    NBT_BAD_LINE = 120, /* it is none of a capture's */

    NBT_UNKNOWN_STATUS = 255 /* no number of this enum */
};

/* As many bytes of the stack as no call wants more of, and as no name's text and no phrase has more of. */
#define NBT_STACK 65536
#define NBT_NAME_ROOM 704
#define NBT_BRIEF_ROOM 2048
/* As many bytes as no line of a capture has more of, and as its payload has no more of. */
#define NBT_MOST_LINE 262200
#define NBT_LINE_ROOM 131097
/* As many bytes of data as no datagram has more of, nor a packet of one, and as the body of no packet of a session has more of. */
#define NBT_MOST_DATAGRAM 65535
#define NBT_MOST_BODY 131071
/* How many keys a table of the command `nbt` has room for where it isn't told, and as many as it may be told, at most. */
#define NBT_KEYS 1024
#define NBT_MOST_KEYS 65535
/* As many bytes of an input as the command `nbt` reads no more of where it isn't told. */
#define NBT_INPUT 16777216
/* Where the first question or record of a packet of port 137 stands: behind its header. */
#define NBT_FIRST_ITEM 12
/* As many names as no station has more of, and for how many milliseconds it keeps a key. */
#define NBT_MOST_NAMES 254
#define NBT_KEPT_FOR 2000

/* The words of a status, as "done", plain ASCII without a line feed, at most 64 bytes.
 * NBT_NO_ROOM, NBT_UNKNOWN_STATUS. */
uint32_t nbt_status_text(uint32_t status, uint8_t *into, size_t into_length, size_t *used);

/* The version that this header is of, and nbt_version's that of the library that is called: as `nbt --version` has it. */
#define NBT_VERSION "0.1.0"

/* The version of the library, as "0.1.0".
 * NBT_NO_ROOM. */
uint32_t nbt_version(uint8_t *into, size_t into_length, size_t *used);

/* Names: RFC 1001 section 14, RFC 1002 section 4.1. ---------------------------------------------------------------- */

/* The spelling of the name with this text: its labels, each after its length, then a zero byte; at most 255 bytes.
 * NBT_BAD_TEXT, NBT_LONG_TEXT, NBT_NO_MEMORY, NBT_NO_ROOM, judged in this order. */
uint32_t nbt_name_spell(const uint8_t *text, size_t text_length,
                        uint8_t *into, size_t into_length, size_t *used, size_t *at);

/* The text of the name with this spelling, which is without pointers and has no byte after it; at most NBT_NAME_ROOM bytes.
 * 20 to 24, NBT_NAME_TRAILING_BYTES, NBT_NO_MEMORY, NBT_NO_ROOM. */
uint32_t nbt_name_text(const uint8_t *spelling, size_t spelling_length,
                       uint8_t *into, size_t into_length, size_t *used, size_t *at);

/* The next two are names of sixteen bytes, as a node status has them, which have no scope: RFC 1001 section 14.1. They are the header's
 * own, over the two calls above; the library has no symbol for them. */

/* The text of the name with these bytes; at most 49 bytes.
 * NBT_NO_MEMORY, NBT_NO_ROOM. */
static inline uint32_t nbt_node_name_text(const uint8_t name[16], uint8_t *into, size_t into_length, size_t *used) {
    uint8_t spelling[34] = {32};
    size_t at;
    for (at = 0; at < 16; at++) {
        spelling[2 * at + 1] = (uint8_t)('A' + (name[at] >> 4));
        spelling[2 * at + 2] = (uint8_t)('A' + (name[at] & 15));
    }
    return nbt_name_text(spelling, sizeof spelling, into, into_length, used, &at);
}

/* The bytes of the name with this text.
 * NBT_BAD_TEXT, NBT_LONG_TEXT, also where the name has a scope, NBT_NO_MEMORY. */
static inline uint32_t nbt_node_name_bytes(const uint8_t *text, size_t text_length, uint8_t name[16], size_t *at) {
    uint8_t spelling[255];
    size_t used, i;
    uint32_t status = nbt_name_spell(text, text_length, spelling, sizeof spelling, &used, at);
    if (status == NBT_DONE && used != 34)
        status = NBT_LONG_TEXT;
    for (i = 0; i < 16 && status == NBT_DONE; i++)
        name[i] = (uint8_t)((spelling[2 * i + 1] - 'A') << 4 | (spelling[2 * i + 2] - 'A'));
    return status;
}

/* Packets. ---------------------------------------------------------------------------------------------------------- */

/* The ports of the three services. */
enum nbt_port {
    NBT_PORT_NAMES = 137,     /* the name service, over UDP */
    NBT_PORT_DATAGRAMS = 138, /* the datagram service, over UDP */
    NBT_PORT_SESSIONS = 139   /* the session service, over TCP */
};

/* The section of a question or a record: RFC 1002 section 4.2.1. */
enum nbt_section {
    NBT_SECTION_QUESTION = 0,   /* a question */
    NBT_SECTION_ANSWER = 1,     /* an answer */
    NBT_SECTION_AUTHORITY = 2,  /* a record of the authority section */
    NBT_SECTION_ADDITIONAL = 3  /* an additional record */
};

/* QUESTION_TYPE and RR_TYPE: RFC 1002 sections 4.2.1.2 and 4.2.1.3. */
enum nbt_record_type {
    NBT_TYPE_NS = 0x0002,     /* RR_TYPE of a name server */
    NBT_TYPE_NULL = 0x000a,   /* RR_TYPE of an answer that says nothing of the name */
    NBT_TYPE_NB = 0x0020,     /* RR_TYPE of an address of a NetBIOS name */
    NBT_TYPE_NBSTAT = 0x0021  /* RR_TYPE of the status of a node */
};

/* The second word of a header of the name service: RFC 1002 section 4.2.1.1. */
enum nbt_word {
    NBT_WORD_R = 0x8000,        /* R: a response */
    NBT_WORD_OPCODE = 0x7800,   /* OPCODE, in four bits */
    NBT_WORD_NM_FLAGS = 0x07f0, /* NM_FLAGS, of which these have names: */
    NBT_WORD_AA = 0x0400,       /* AA: the node has the name, or keeps account of it */
    NBT_WORD_TC = 0x0200,       /* TC: something is missing */
    NBT_WORD_RD = 0x0100,       /* RD: recursion is desired */
    NBT_WORD_RA = 0x0080,       /* RA: recursion is available */
    NBT_WORD_B = 0x0010,        /* B: it was broadcast or multicast */
    NBT_WORD_RCODE = 0x000f     /* RCODE, in four bits */
};

/* OPCODE: what a packet asks for, or answers. That 8 and 9 are both a refresh is said by RFC 1002 sections 4.2.1.1 and 4.2.4. */
enum nbt_operation {
    NBT_OP_QUERY = 0,         /* who has a name, or which names a node has */
    NBT_OP_REGISTRATION = 5,  /* a name is claimed */
    NBT_OP_RELEASE = 6,       /* it is given up */
    NBT_OP_WACK = 7,          /* the answer takes its time */
    NBT_OP_REFRESH = 8,       /* it is claimed anew */
    NBT_OP_OTHER_REFRESH = 9  /* the same, by the other number that the standard has for it */
};

/* RCODE: how a request fared. */
enum nbt_result_code {
    NBT_RCODE_OK = 0,      /* it was done; of a request, nothing is said */
    NBT_RCODE_FMT_ERR = 1, /* its form was bad */
    NBT_RCODE_SRV_ERR = 2, /* the server can't */
    NBT_RCODE_NAM_ERR = 3, /* the name isn't there */
    NBT_RCODE_IMP_ERR = 4, /* the server doesn't do such requests */
    NBT_RCODE_RFS_ERR = 5, /* the server won't */
    NBT_RCODE_ACT_ERR = 6, /* another node has the name */
    NBT_RCODE_CFT_ERR = 7  /* several nodes have it */
};

/* NB_FLAGS and NAME_FLAGS: RFC 1002 sections 4.2.13 and 4.2.18. */
enum nbt_name_flag {
    NBT_FLAG_G = 0x8000,   /* G: a group's name */
    NBT_FLAG_ONT = 0x6000, /* ONT: the type of the node, one of enum nbt_node_type */
    NBT_FLAG_DRG = 0x1000, /* DRG: it is being given up; this and what follows are of NAME_FLAGS alone */
    NBT_FLAG_CNF = 0x0800, /* CNF: another node claims it */
    NBT_FLAG_ACT = 0x0400, /* ACT: it is active */
    NBT_FLAG_PRM = 0x0200  /* PRM: it is the node's permanent name */
};

/* ONT: how a node claims its names and asks for those of others. */
enum nbt_node_type {
    NBT_NODE_B = 0, /* by broadcast */
    NBT_NODE_P = 1, /* by a server */
    NBT_NODE_M = 2, /* by broadcast, then by a server */
    NBT_NODE_H = 3  /* by a server, then by broadcast; RFC 1002 reserves this number */
};

/* MSG_TYPE: RFC 1002 section 4.4.1. */
enum nbt_datagram_type {
    NBT_DATAGRAM_UNIQUE = 0x10,    /* a fragment of a datagram for one name */
    NBT_DATAGRAM_GROUP = 0x11,     /* a fragment of one for the members of a group */
    NBT_DATAGRAM_BROADCAST = 0x12, /* a fragment of one for all */
    NBT_DATAGRAM_ERROR = 0x13,     /* a datagram wasn't taken */
    NBT_DATAGRAM_FIND = 0x14,      /* a question: who has the name? */
    NBT_DATAGRAM_FOUND = 0x15,     /* the answer that somebody has it */
    NBT_DATAGRAM_MISSING = 0x16    /* the answer that nobody has it */
};

/* FLAGS of a packet of the datagram service: RFC 1002 section 4.4.1. */
enum nbt_datagram_flag {
    NBT_DATAGRAM_MORE = 0x01,  /* more fragments follow */
    NBT_DATAGRAM_FIRST = 0x02  /* the first fragment */
};

/* TYPE of a packet of the session service: RFC 1002 section 4.3.1. */
enum nbt_session_type {
    NBT_SESSION_MESSAGE = 0x00,   /* data of the session */
    NBT_SESSION_REQUEST = 0x81,   /* a request for a session; its body is the spelling of the called name, then that of the calling one */
    NBT_SESSION_POSITIVE = 0x82,  /* the answer that the session stands; without a body */
    NBT_SESSION_NEGATIVE = 0x83,  /* the answer that it doesn't; its body is a code of one byte */
    NBT_SESSION_RETARGET = 0x84,  /* the answer that somebody else is to be called: an address in four bytes, and a port in two */
    NBT_SESSION_KEEPALIVE = 0x85  /* a sign of life; without a body */
};

/* What the command `nbt show` prints of a payload that came to this port, line feeds included: the packet that it
 * begins with, or why it begins with none (our choice). 137 is the name service, 138 the datagram service; any other
 * port is taken for a session. The text has at most 131 bytes for each byte of the payload, and 64 more: of port 137 a name may
 * be pointed to many times.
 * NBT_NO_MEMORY, NBT_NO_ROOM. */
uint32_t nbt_show(uint16_t port, const uint8_t *payload, size_t payload_length,
                  uint8_t *into, size_t into_length, size_t *used);

/* The JSON object (RFC 8259) of a payload that came to this port, without a line feed: what the command `nbt show --json`
 * prints of it, but for the members of its line, which are `line`, `port`, `moment` and `comment`. Ports are as of nbt_show. It
 * has at most 174 bytes for each byte of the payload, and 128 more.
 * NBT_NO_MEMORY, NBT_NO_ROOM. */
uint32_t nbt_json(uint16_t port, const uint8_t *payload, size_t payload_length,
                  uint8_t *into, size_t into_length, size_t *used);

/* The phrase of a payload that came to this port, without a line feed: what the command `nbt show --brief` prints of it
 * after the two numbers of its line (the words are our choice). Ports are as of nbt_show. Of a payload of at most
 * NBT_LINE_ROOM bytes, as many as a line of a capture has, it has at most 205 bytes where no name has more than 19, else at most
 * 1,633; of any payload at most 222 and 1,652, which is less than NBT_BRIEF_ROOM.
 * NBT_NO_MEMORY, NBT_NO_ROOM. */
uint32_t nbt_brief(uint16_t port, const uint8_t *payload, size_t payload_length,
                   uint8_t *into, size_t into_length, size_t *used);

/* What a line of a capture is. */
enum nbt_line_kind {
    NBT_BLANK = 0,  /* it is empty, or a comment */
    NBT_PACKET = 1, /* a payload that came */
    NBT_TICK = 2    /* what the clock shows */
};

/* A line of a capture, in numbers. A number of which nothing is said is 0. */
struct nbt_line {
    uint32_t kind;   /* one of enum nbt_line_kind */
    uint16_t port;   /* of a packet: the port that it came to, 137, 138 or 139 */
    uint64_t moment; /* when a packet came, or what the clock shows, in milliseconds since any moment of the capture's choice */
};

/* Reads a line of a capture, which is without its line feed: `PORT MOMENT HEX` is a packet, whose bytes HEX has, or the word `empty`;
 * `tick MOMENT` is the clock; a line that is empty or begins with `#` is blank (our choice; docs/FORMATS.md has the form). The payload
 * is written, of at most NBT_LINE_ROOM bytes; of any other line no byte is. At NBT_NO_ROOM `*said` is as it was, too.
 * NBT_BAD_LINE for any other line, and for one of more than NBT_MOST_LINE bytes, NBT_NO_MEMORY for a payload of a byte or more alone,
 * NBT_NO_ROOM, judged in this order. */
uint32_t nbt_capture_line(const uint8_t *line, size_t line_length, struct nbt_line *said,
                          uint8_t *into, size_t into_length, size_t *used);

/* The header of a packet of the name service: RFC 1002 section 4.2.1.1. */
struct nbt_service_header {
    uint16_t identifier;  /* NAME_TRN_ID */
    uint16_t word;        /* its bits are those of enum nbt_word */
    uint16_t questions;   /* QDCOUNT */
    uint16_t answers;     /* ANCOUNT */
    uint16_t authorities; /* NSCOUNT */
    uint16_t additional;  /* ARCOUNT */
    size_t used;          /* the bytes of the packet; of nbt_service_header NBT_FIRST_ITEM, those of the header */
};

/* Reads the header at the front of a payload of port 137. What follows it isn't looked at.
 * NBT_TRUNCATED for less than twelve bytes. No memory is taken. */
uint32_t nbt_service_header(const uint8_t *payload, size_t payload_length, struct nbt_service_header *header, size_t *at);

/* Judges the packet at the front of a payload of port 137 whole, and reads its header. What follows it isn't looked at, but
 * that a name may lead into it.
 * NBT_TRUNCATED for less than a header; then the first fault of the first question or record that doesn't stand whole: of
 * its name 20, 21, 23 or 26, NBT_TRUNCATED, and of a record of type NS 20, 21, 23 or 26 of the name in its RDATA,
 * NBT_NAME_RDATA. No memory is taken; of a payload of more than 576 bytes the call wants 33 kB of the stack. */
uint32_t nbt_service_read(const uint8_t *payload, size_t payload_length, struct nbt_service_header *header, size_t *at);

/* A question or a record of the name service: RFC 1002 sections 4.2.1.2 and 4.2.1.3. Places and lengths are in bytes of
 * the payload. */
struct nbt_service_item {
    uint32_t section;      /* one of enum nbt_section */
    uint32_t time_to_live; /* TTL, in seconds; 0 of a question */
    uint16_t type;         /* QUESTION_TYPE or RR_TYPE, as of enum nbt_record_type */
    uint16_t class_number; /* QUESTION_CLASS or RR_CLASS */
    size_t data;           /* RDATA; its length is 0 of a question */
    size_t data_length;
    size_t next;           /* where the next question or record stands, if there is one */
    uint8_t netbios;       /* 1 where the name is a NetBIOS name, whose text nbt_name_text gives; else 0 */
    uint8_t name_length;   /* the bytes of the name's spelling, in which pointers were followed, its last zero byte included */
    uint8_t name[255];     /* the spelling, and bytes of zero after it */
};

/* Reads the question or the record with this number, counted from 0, that stands at a place of a payload of port 137. The
 * first stands at NBT_FIRST_ITEM, and each other at `next` of the one before: asked for so, these are those of the packet or, of a
 * payload that begins with none, as many as stand whole before the fault of nbt_service_read. So a program that wants all of
 * them needs nbt_service_header alone before: where the packet doesn't stand, the item that doesn't has its fault, and where
 * it does, it reaches to `next` of the last one, or to NBT_FIRST_ITEM.
 * NBT_TRUNCATED for less than a header, NBT_NO_ITEM, and of what stands there its first fault, as of nbt_service_read. No
 * memory is taken. */
uint32_t nbt_service_item(const uint8_t *payload, size_t payload_length, uint32_t number, size_t place,
                          struct nbt_service_item *item, size_t *at);

/* A question or a record, and the name that is the RDATA of a record of type NS. */
struct nbt_service_entry {
    struct nbt_service_item item;
    uint8_t server_length; /* the bytes of that name's spelling, its last zero byte included; 0 of any other type */
    uint8_t server[255];   /* the spelling, in which pointers were followed, and bytes of zero after it */
};

/* Reads many of them: from this number on, of which the first stands at a place of a payload of port 137, as many as stand and as
 * there is room for, of at most 262,140. `*used` of `entries` are filled in, each as nbt_service_item answers it, and the others are
 * as they were. Where they are fewer than there is room for, the next one doesn't stand, or the header counts no more: a call from
 * there on says why. A call costs as much as the first 16,384 bytes of the payload, at most, and what it fills in, whatever pointers the names
 * have: so many are best read at once. nbt_service_item and nbt_service_domain follow a name's pointers one by one.
 * Those of nbt_service_item, of the first one; NBT_DONE where there is no room. No memory is taken; of a payload of more than
 * 576 bytes the call wants 33 kB of the stack. */
uint32_t nbt_service_items(const uint8_t *payload, size_t payload_length, uint32_t number, size_t place,
                           struct nbt_service_entry *entries, size_t entries_length, size_t *used, size_t *at);

/* The parts of RDATA, of the type and the bytes that nbt_service_item told of a record. Numbers are counted from 0, and
 * the calls may be made with any type and any bytes. No memory is taken. */

/* An address of a NetBIOS name, in RDATA of type NB: RFC 1002 section 4.2.13. */
struct nbt_service_address {
    uint32_t address; /* NB_ADDRESS */
    uint16_t flags;   /* NB_FLAGS, of enum nbt_name_flag */
};

/* Reads the address with this number.
 * NBT_OTHER_RDATA where the type isn't NB, and where the bytes aren't entries of six bytes alone, NBT_NO_PART. */
uint32_t nbt_service_address(uint16_t type, const uint8_t *data, size_t data_length, size_t number,
                             struct nbt_service_address *address, size_t *at);

/* One of the names of a node, in RDATA of type NBSTAT: RFC 1002 section 4.2.18. */
struct nbt_service_node {
    uint16_t flags;   /* NAME_FLAGS, of enum nbt_name_flag */
    uint8_t name[16]; /* the bytes of the name, whose text nbt_node_name_text gives */
};

/* Reads the name with this number.
 * NBT_OTHER_RDATA where the type isn't NBSTAT, and where there is less than as many names as the first byte says,
 * NBT_NO_PART. */
uint32_t nbt_service_node(uint16_t type, const uint8_t *data, size_t data_length, size_t number,
                          struct nbt_service_node *node, size_t *at);

/* The unit of a node, in RDATA of type NBSTAT: RFC 1002 section 4.2.18. */
struct nbt_service_unit {
    uint8_t bytes[6]; /* UNIT_ID */
};

/* Reads the unit, which stands behind the names.
 * NBT_OTHER_RDATA as of nbt_service_node, NBT_TRUNCATED where fewer than six bytes stand there. */
uint32_t nbt_service_unit(uint16_t type, const uint8_t *data, size_t data_length, struct nbt_service_unit *unit, size_t *at);

/* The name in RDATA of type NS: RFC 1002 section 4.2.1.3. Its pointers lead into the payload, so the call is given the whole of it,
 * and `data` and `data_length` as nbt_service_item told of the record; it may be made with any two numbers. It writes the spelling
 * of the name, in which pointers were followed, its last zero byte included: at most 255 bytes. nbt_name_text gives the text, where it
 * is a NetBIOS name. `*at` counts in the payload.
 * 20, 21, 23 or 26, NBT_NAME_RDATA, NBT_NO_ROOM, judged in this order. No memory is taken. */
uint32_t nbt_service_domain(const uint8_t *payload, size_t payload_length, size_t data, size_t data_length,
                            uint8_t *into, size_t into_length, size_t *used, size_t *at);

/* A packet of the datagram service: RFC 1002 section 4.4. Places and lengths are in bytes of the payload. */
struct nbt_datagram {
    uint8_t type;               /* MSG_TYPE, one of enum nbt_datagram_type: 0x10 to 0x12 a fragment, 0x14 to 0x16 a query */
    uint8_t flags;              /* FLAGS, all eight bits, as of enum nbt_datagram_flag */
    uint16_t identifier;        /* DGM_ID */
    uint32_t address;           /* SOURCE_IP */
    uint16_t port;              /* SOURCE_PORT */
    uint16_t offset;            /* PACKET_OFFSET: where the data begins in the datagram's; 0 but in a fragment */
    size_t source;              /* the spelling of SOURCE_NAME; its length is 0 but in a fragment */
    size_t source_length;
    size_t destination;         /* the spelling of DESTINATION_NAME; its length is 0 in an error */
    size_t destination_length;
    size_t data;                /* a fragment's data, or an error's code, which is one byte; none in a query */
    size_t data_length;
    size_t used;                /* the bytes of the packet; what follows it isn't looked at */
};

/* Reads the packet at the front of a payload of port 138. A place whose length is 0 is 0, but for a fragment's data.
 * NBT_TRUNCATED for less than the ten bytes of a header, NBT_UNKNOWN_TYPE, NBT_TRUNCATED, 30 to 34, 40 to 44, judged in
 * this order. No memory is taken. */
uint32_t nbt_datagram_read(const uint8_t *payload, size_t payload_length, struct nbt_datagram *packet, size_t *at);

/* What stands at the front of a payload of port 138, whether or not a packet does: RFC 1002 sections 4.4.1 and 4.4.2.
 * Places and lengths are in bytes of the payload. */
struct nbt_datagram_front {
    uint8_t type;              /* MSG_TYPE, also one that no packet has */
    uint8_t flags;             /* FLAGS, all eight bits */
    uint16_t identifier;       /* DGM_ID */
    uint32_t address;          /* SOURCE_IP */
    uint16_t port;             /* SOURCE_PORT */
    uint16_t offset;           /* PACKET_OFFSET; 0 but in a fragment */
    size_t source;             /* the spelling of SOURCE_NAME; its length is 0 where it isn't there whole */
    size_t source_length;
    size_t destination;        /* the spelling of DESTINATION_NAME; its length is 0 where not both names are there whole */
    size_t destination_length;
};

/* Reads what stands at the front of a payload of port 138: its header and, of a fragment, the names that are there whole,
 * inside the bytes that DGM_LENGTH counts, of which some may be missing (our choice). A place whose length is 0 is 0.
 * NBT_TRUNCATED for less than the header: the fourteen bytes of a fragment, ten of any other payload. No memory is taken. */
uint32_t nbt_datagram_front(const uint8_t *payload, size_t payload_length, struct nbt_datagram_front *front, size_t *at);

/* The packets of a datagram, cut into pieces of at most `most` bytes of data, in order, each after its length in two
 * bytes, the higher one first. Source and destination are texts; `type` is 0x10, 0x11 or 0x12.
 * NBT_UNKNOWN_TYPE, 12 to 15, NBT_LONG_DATA for data over 65,535 bytes, NBT_ZERO_PIECE, NBT_LONG_DATA where the longest
 * packet would pass 65,535 bytes, NBT_NO_MEMORY, NBT_NO_ROOM, judged in this order.
 * RFC 1002 section 4.4.2; that each fragment carries both names is our choice. */
uint32_t nbt_datagram_write(uint8_t type, uint16_t identifier, uint32_t address, uint16_t port,
                            const uint8_t *source, size_t source_length,
                            const uint8_t *destination, size_t destination_length,
                            const uint8_t *data, size_t data_length, uint16_t most,
                            uint8_t *into, size_t into_length, size_t *used, size_t *at);

/* An error packet with this code, which says why a datagram wasn't taken: 0x82 nobody has the name that it is for, 0x83 and
 * 0x84 the format of its source's or of its destination's name. The address and the port are those of the station that
 * sends the error, and the identifier is the datagram's. FLAGS are 0x02 (our choice).
 * NBT_NO_MEMORY, NBT_NO_ROOM.
 * RFC 1002 section 4.4.3. */
uint32_t nbt_datagram_error(uint16_t identifier, uint32_t address, uint16_t port, uint8_t code,
                            uint8_t *into, size_t into_length, size_t *used);

/* A query to a distribution server about the name with this text, or its answer: `type` is 0x14 for the question, 0x15 for
 * the answer that it has the name, 0x16 for the answer that it hasn't. FLAGS are 0x02 (our choice).
 * NBT_UNKNOWN_TYPE, NBT_BAD_TEXT, NBT_LONG_TEXT, NBT_NO_MEMORY, NBT_NO_ROOM, judged in this order.
 * RFC 1002 section 4.4.4. */
uint32_t nbt_datagram_query(uint8_t type, uint16_t identifier, uint32_t address, uint16_t port,
                            const uint8_t *name, size_t name_length,
                            uint8_t *into, size_t into_length, size_t *used, size_t *at);

/* A packet of the session service: RFC 1002 section 4.3. */
struct nbt_session {
    uint8_t type;       /* TYPE, one of enum nbt_session_type */
    size_t body;        /* where the body begins: after the four bytes of the header */
    size_t body_length; /* at most 131,071 bytes */
    size_t used;        /* the bytes of the packet; what follows it isn't looked at */
};

/* Reads the packet at the front of what came over a connection to port 139.
 * NBT_MORE for less than a header, NBT_UNKNOWN_TYPE, NBT_RESERVED_FLAGS, NBT_BAD_LENGTH, NBT_MORE, and of a request 20
 * to 24, NBT_TRAILING_BYTES, judged in this order. No memory is taken. */
uint32_t nbt_session_read(const uint8_t *bytes, size_t bytes_length, struct nbt_session *packet, size_t *at);

/* The header of a packet of the session service: RFC 1002 section 4.3.1. */
struct nbt_session_front {
    uint8_t type;       /* TYPE, also one that no packet has */
    uint8_t flags;      /* FLAGS, all eight bits */
    size_t body_length; /* how many bytes the body has: LENGTH, and 65,536 where the lowest bit of FLAGS is set */
};

/* Reads the header at the front of what came over a connection to port 139, whether or not a packet stands there. What
 * follows it isn't looked at.
 * NBT_MORE for less than its four bytes. No memory is taken. */
uint32_t nbt_session_front(const uint8_t *bytes, size_t bytes_length, struct nbt_session_front *front, size_t *at);

/* The names of a session request: RFC 1002 section 4.3.2. */
struct nbt_session_names {
    uint8_t called_length;  /* the bytes of the spelling of the name that is called, its last zero byte included */
    uint8_t called[255];    /* the spelling, whose text nbt_name_text gives, and bytes of zero after it */
    uint8_t calling_length; /* the same of the name that calls */
    uint8_t calling[255];
};

/* Reads the names of the request at the front of what came over a connection to port 139.
 * Those of nbt_session_read, then NBT_OTHER_TYPE for a packet that is no request. No memory is taken. */
uint32_t nbt_session_names(const uint8_t *bytes, size_t bytes_length, struct nbt_session_names *names, size_t *at);

/* Where a retarget leads: RFC 1002 section 4.3.5. */
struct nbt_session_retarget {
    uint32_t address; /* RETARGET_IP_ADDRESS */
    uint16_t port;    /* PORT */
};

/* Reads where the retarget leads at the front of what came over a connection to port 139.
 * Those of nbt_session_read, then NBT_OTHER_TYPE for a packet that is no retarget. No memory is taken. */
uint32_t nbt_session_retarget(const uint8_t *bytes, size_t bytes_length, struct nbt_session_retarget *retarget, size_t *at);

/* The packet with this type and this body. The body of a request is the spelling of the name that is called, then that
 * of the name that calls. What is written is what nbt_session_read reads.
 * NBT_UNKNOWN_TYPE, NBT_BAD_LENGTH, and of a request 20 to 24, NBT_TRAILING_BYTES, whose place counts from the front of
 * the packet, NBT_NO_MEMORY (which may come before them), NBT_NO_ROOM. */
uint32_t nbt_session_write(uint8_t type, const uint8_t *body, size_t body_length,
                           uint8_t *into, size_t into_length, size_t *used, size_t *at);

/* Requests of the name service: RFC 1002 sections 4.2.12, 4.2.17, 4.2.2, 4.2.4 and 4.2.9. */
enum nbt_request {
    NBT_QUERY = 0,
    NBT_NODE_STATUS = 1,
    NBT_REGISTRATION = 2,
    NBT_REFRESH = 3, /* its opcode is 8, and RD is clear (our choice) */
    NBT_RELEASE = 4
};

/* A request about the name with this text. `broadcast` sets B. The time to live, in seconds, is that of a registration
 * and of a refresh; NB_FLAGS and the address are theirs and a release's.
 * NBT_UNKNOWN_REQUEST, NBT_BAD_TEXT, NBT_LONG_TEXT, NBT_NO_MEMORY, NBT_NO_ROOM, judged in this order. */
uint32_t nbt_service_request(uint32_t request, uint16_t identifier, bool broadcast,
                             const uint8_t *name, size_t name_length,
                             uint32_t time_to_live, uint16_t nb_flags, uint32_t address,
                             uint8_t *into, size_t into_length, size_t *used, size_t *at);

/* A response of the name service: a packet with one answer about the name with this text, and nothing else. Its class is
 * IN. `word` is the whole word of flags, of enum nbt_word, written as it is. `type` is
 * RR_TYPE, and `data` RDATA: of type NS (0x0002) the spelling of a domain name, which is without pointers and has no byte
 * after it; of another any bytes.
 * NBT_BAD_TEXT, NBT_LONG_TEXT, then of type NS 20 to 23 and NBT_NAME_TRAILING_BYTES (*at counts in `data`), of another
 * NBT_LONG_DATA for more than 65,535 bytes, NBT_NO_MEMORY, NBT_NO_ROOM, judged in this order.
 * RFC 1002 sections 4.2.5 to 4.2.18, but for 4.2.8 and 4.2.15. */
uint32_t nbt_service_response(uint16_t identifier, uint16_t word, const uint8_t *name, size_t name_length,
                              uint16_t type, uint32_t time_to_live, const uint8_t *data, size_t data_length,
                              uint8_t *into, size_t into_length, size_t *used, size_t *at);

/* Saved tables: what is known of datagrams, as the command `nbt save` writes it, as bytes instead of digits (our choice).
 * Both forms are read, NBT1 and NBT2; the second is written. docs/FORMATS.md has them. ------------------------------ */

/* Joins two tables, and writes the joined one: all that either knows. Each of the three has room for `keys` keys, and
 * for `per_source` keys of one address, whatever its ports; UINT32_MAX is no limit.
 * 70 to 75 of the first, 80 to 85 of the second, NBT_FULL_SOURCE, NBT_FULL, NBT_NO_MEMORY (which may come before those
 * that follow the first), NBT_NO_ROOM. */
uint32_t nbt_table_merge(const uint8_t *first, size_t first_length, const uint8_t *second, size_t second_length,
                         uint32_t keys, uint32_t per_source,
                         uint8_t *into, size_t into_length, size_t *used, size_t *at);

/* What the command `nbt list` prints of a table: a line for each key, ascending, line feeds included (our choice). However
 * many keys it has, of however many addresses, none is too many. The lines are at most four times as long as the table.
 * 70 to 72, NBT_NO_MEMORY, NBT_NO_ROOM. */
uint32_t nbt_table_list(const uint8_t *table, size_t table_length,
                        uint8_t *into, size_t into_length, size_t *used, size_t *at);

/* What the command `nbt list --json` prints of a table: a JSON object (RFC 8259) for each key, ascending, line feeds
 * included (our choice). They are at most six times as long as the table.
 * 70 to 72, NBT_NO_MEMORY, NBT_NO_ROOM. */
uint32_t nbt_table_json(const uint8_t *table, size_t table_length,
                        uint8_t *into, size_t into_length, size_t *used, size_t *at);

/* Whether two tables differ, and the least key at which they do: a key is below another by its address, then by its port,
 * then by its identifier. */
struct nbt_difference {
    uint32_t address;    /* SOURCE_IP of the key, SOURCE_PORT and DGM_ID; zeros where the tables are equal */
    uint16_t port;
    uint16_t identifier;
    uint8_t differ;      /* 1 where the tables differ, else 0 */
};

/* Compares two tables by what they know of each key. However many keys they have, none is too many.
 * 70 to 72 of the first, 80 to 82 of the second, NBT_NO_MEMORY (which may come before those of the second). */
uint32_t nbt_table_differ(const uint8_t *first, size_t first_length, const uint8_t *second, size_t second_length,
                          struct nbt_difference *difference, size_t *at);

/* A station: its names, and a table that the payloads of port 138 fill and the clock empties (RFC 1002 section 5.3).
 * A datagram is handed over once, by the payload that makes it whole, if one of the names hears it: the name that it is
 * for or, of a broadcast, a name of that name's scope. -------------------------------------------------------------- */

/* What nbt_station_create fills in, and nbt_station_free gives back, once each. The other calls move what it points to,
 * so a copy made before one isn't good after it; nor is one that was given back, or a copy of it, until its `at` is made null or
 * nbt_station_create fills it in once more. One of all zero bytes is none: nbt_station_free does nothing with it, and each other
 * call answers NBT_NO_STATION, before anything else, and changes nothing. */
struct nbt_station {
    void *at;
};

/* Makes a station with these names: their texts with one space between two, and none where the length is 0. Error
 * packets have this address and port. Its table is empty, and has room for `keys` keys, and for `per_source` of one
 * address, whatever its ports; UINT32_MAX is no limit. A key is kept from its first fragment on until the clock drops it,
 * some 200 bytes and the data each. `*station` goes to `at` of a struct nbt_station; it is null unless the answer is NBT_DONE.
 * The first fault of the names in order: NBT_BAD_TEXT and NBT_LONG_TEXT (*at counts from the front of `names`),
 * NBT_NAME_PRESENT, NBT_TOO_MANY_NAMES; NBT_NO_MEMORY, which may come before those of a text after the first. */
uint32_t nbt_station_create(const uint8_t *names, size_t names_length, uint32_t address, uint16_t port,
                            uint32_t keys, uint32_t per_source, void **station, size_t *at);

/* What became of a payload. */
enum nbt_outcome {
    NBT_KEPT = 0,      /* a fragment, by which its datagram became neither whole nor spoilt */
    NBT_SPOILT = 1,    /* a fragment that contradicts what was known of its datagram */
    NBT_DELIVERED = 2, /* a fragment that made its datagram whole, and one of the names hears it */
    NBT_UNHEARD = 3,   /* a fragment that made its datagram whole, and none of the names hears it */
    NBT_OTHER = 4,     /* an error or a query packet; the station is as it was */
    NBT_REFUSED = 5    /* no packet stands at the front of the payload; the station is as it was */
};

/* What became of a payload, in numbers. A number of which nothing is said is 0. */
struct nbt_taken {
    uint32_t outcome;          /* one of enum nbt_outcome */
    uint32_t address;          /* of a fragment: the key of its datagram, SOURCE_IP, SOURCE_PORT and DGM_ID */
    uint16_t port;
    uint16_t identifier;
    uint8_t type;              /* at NBT_DELIVERED: MSG_TYPE, 0x10 to a unique name, 0x11 to a group, 0x12 a broadcast */
    size_t source_length;      /* at NBT_DELIVERED: the spelling of the source stands at the front of the buffer, */
    size_t destination_length; /* then that of the destination, */
    size_t data_length;        /* then the data */
    size_t error_length;       /* at NBT_UNHEARD and NBT_REFUSED: the packet that stands at the front of the buffer, to be
                                  sent to where the payload came from; 0 where there is none to send */
    uint32_t refusal;          /* at NBT_REFUSED: the status that nbt_datagram_read answers to the payload, */
    size_t refused_at;         /* and the place that goes with it, if it has one */
};

/* As many bytes as no call of nbt_station_take writes more of: two spellings of at most 255 bytes, and 65,535 of data. */
#define NBT_TAKE_ROOM 66045

/* Takes a payload of port 138 that came at this moment, in milliseconds since any moment of the caller's choice. The
 * buffer has room for NBT_TAKE_ROOM bytes, whatever the payload: where it has less the answer is NBT_NO_ROOM, and
 * `*used` is NBT_TAKE_ROOM. So nothing can be lost for want of room once the payload is taken in. At NBT_DONE `*used`
 * bytes are written, and `*taken` says which.
 * NBT_NO_STATION, NBT_NO_ROOM, NBT_MISPLACED_FIRST, NBT_LONG, NBT_FULL_SOURCE, NBT_FULL, NBT_NO_MEMORY (which may come before those that
 * follow the first). At each of these the station, the buffer and `*taken` are as they were. */
uint32_t nbt_station_take(struct nbt_station *station, uint64_t moment, const uint8_t *payload, size_t payload_length,
                          struct nbt_taken *taken, uint8_t *into, size_t into_length, size_t *used);

/* Looks at the clock, which shows `now`: drops each key that came at least 2,000 milliseconds before, whatever is known
 * of it. `*dropped` is how many. That a station has to be shown the clock is our choice; nothing else drops a key.
 * NBT_NO_STATION. No memory is taken. */
uint32_t nbt_station_tick(struct nbt_station *station, uint64_t now, uint32_t *dropped);

/* Writes the station's table, saved. The names, the limits and the moments aren't in it.
 * NBT_NO_STATION, NBT_NO_MEMORY, NBT_NO_ROOM. */
uint32_t nbt_station_save(struct nbt_station *station, uint8_t *into, size_t into_length, size_t *used);

/* What nbt_table_list writes of the station's table.
 * NBT_NO_STATION, NBT_NO_MEMORY, NBT_NO_ROOM. */
uint32_t nbt_station_list(struct nbt_station *station, uint8_t *into, size_t into_length, size_t *used);

/* Joins the saved table of another station to this one's, at this moment: the keys that are new came then. Writes the
 * datagrams that become whole by this, of those that one of the names hears, by ascending key. Each is its key, as in
 * saved tables (SOURCE_IP in four bytes, SOURCE_PORT and DGM_ID in two), MSG_TYPE in one, the spellings of the source
 * and of the destination, the length of the data in two, and the data; the higher byte of a number first (our choice).
 * Nothing is lost at NBT_NO_ROOM: the station is then as it was. The call takes memory for the table that is given, for
 * as much again as is held at its keys, for the datagrams, and for the moment of each key that the station holds.
 * NBT_NO_STATION, 70 to 75, NBT_FULL_SOURCE, NBT_FULL, NBT_NO_MEMORY (which may come before those), NBT_NO_ROOM. At each of these
 * the station and the buffer are as they were. */
uint32_t nbt_station_absorb(struct nbt_station *station, uint64_t moment, const uint8_t *table, size_t table_length,
                            uint8_t *into, size_t into_length, size_t *used, size_t *at);

/* Gives a station back, with all that it kept; nothing, if it is none. */
void nbt_station_free(struct nbt_station station);

#ifdef __cplusplus
}
#endif

#endif
