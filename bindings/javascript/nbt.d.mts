/** What a call takes as bytes. It is copied before the call begins, and one that other threads share, once: what is answered is of that copy. */
export type Bytes = ArrayBufferView | ArrayBuffer | SharedArrayBuffer;
/** An address, as '10.0.0.5' or as a number: 0x0a000005. */
export type Address = string | number;
/** Milliseconds since any moment of the caller's choice. A bigint may have all 64 bits. */
export type Moment = number | bigint;

// In the file that is handed out this line is what it names.
import type { RequestKind, Section, TakenOutcome } from './header.mjs';

export type { RequestKind, Section, TakenOutcome };
/** The numbers of enum nbt_status, by their names without NBT_; nbt.h says when each comes. */
export declare const Status: Readonly<Record<string, number>>;

/** Why a call did nothing. It leaves everything as it was. */
export declare class NbtError extends Error {
    /** The name of the status: 'BAD_TEXT'; 'UNKNOWN_STATUS' of one that only a newer module knows. */
    readonly status: string;
    readonly number: number;
    /** Where the fault stands, in bytes from the start of what has it, or null; at MORE it is no place, but what `missing` is. */
    readonly at: number | null;
    /** At MORE, how many bytes of the packet are missing, at least; else null. */
    readonly missing: number | null;
    constructor(number: number, at: number | null, words: string);
}

/** By what the fragments of a datagram belong together: SOURCE_IP, SOURCE_PORT and DGM_ID. */
export interface Key {
    address: string;
    port: number;
    identifier: number;
}

/** What stands at the front of a payload of port 138, whether or not a packet does: RFC 1002 sections 4.4.1 and 4.4.2. */
export interface DatagramFront extends Key {
    /** MSG_TYPE, one of enum nbt_datagram_type, or one that no packet has. */
    type: number;
    /** FLAGS, all eight bits, as of enum nbt_datagram_flag. */
    flags: number;
    /** Where the data begins in the datagram's; 0 but in a fragment. */
    offset: number;
    /** SOURCE_NAME as a text; null but in a fragment, and where it isn't there whole. */
    source: string | null;
    /** DESTINATION_NAME as a text; null where it isn't there whole, in an error, and in the front of a query. */
    destination: string | null;
}

/** A packet of the datagram service, port 138: RFC 1002 section 4.4. */
export interface Datagram extends DatagramFront {
    /** The bytes of the packet: what follows them isn't looked at. */
    used: number;
    /** A fragment's data, or an error's code, which is one byte; no bytes in a query. */
    data: Uint8Array;
}

/** By what a packet of port 138 that is to be written says whose it is. */
export interface Sender {
    identifier: number;
    address: Address;
    /** 138 without it. */
    port?: number;
}

/** A datagram to be written: 0x10 to a unique name, 0x11 to a group, 0x12 a broadcast. */
export interface DatagramToWrite extends Sender {
    type: number;
    source: string;
    destination: string;
    data: Bytes;
    /** How many bytes of data a piece has, at most; 512 without it. */
    most?: number;
}

/** An error packet to be written, which says why a datagram wasn't taken: the identifier is the datagram's, address and port those of the station
 * that sends the error. */
export interface DatagramErrorToWrite extends Sender {
    /** 0x82 nobody has the name that it is for, 0x83 and 0x84 the format of its source's and of its destination's name. */
    code: number;
}

/** A query to a distribution server, or its answer, to be written: 0x14 the question, 0x15 it has the name, 0x16 it hasn't. */
export interface DatagramQueryToWrite extends Sender {
    type: number;
    name: string;
}

/** A question of the name service: RFC 1002 section 4.2.1.2. */
export interface ServiceQuestion {
    /** The spelling of its name, in which pointers were followed: `text` gives that of a NetBIOS name. */
    spelling: Uint8Array;
    isNetbios: boolean;
    /** QUESTION_TYPE or RR_TYPE, as of enum nbt_record_type. */
    type: number;
    classNumber: number;
}

/** A record of the name service: RFC 1002 section 4.2.1.3. */
export interface ServiceRecord extends ServiceQuestion {
    section: Section;
    /** TTL, in seconds. */
    timeToLive: number;
    /** RDATA. */
    data: Uint8Array;
    /** Of type NB, where RDATA has that form: NB_ADDRESS and NB_FLAGS of each address; else null. */
    addresses: { address: string; flags: number }[] | null;
    /** Of type NBSTAT, where RDATA has that form: the names of a node, sixteen bytes and NAME_FLAGS each, and UNIT_ID; else null. */
    node: { names: { name: Uint8Array; flags: number }[]; unit: Uint8Array | null } | null;
    /** Of type NS: the spelling of the name of a server, in which pointers were followed; else null. */
    server: Uint8Array | null;
}

/** A packet of the name service, port 137: RFC 1002 section 4.2.1. */
export interface ServicePacket {
    identifier: number;
    /** Its bits are those of enum nbt_word. */
    word: number;
    /** QDCOUNT, ANCOUNT, NSCOUNT and ARCOUNT. */
    counts: number[];
    questions: ServiceQuestion[];
    /** The records of all sections, in order. */
    records: ServiceRecord[];
    /** The bytes of the packet, or of what stands: what follows them isn't looked at. */
    used: number;
}

/** What stands of a payload of port 137: its header, and the questions and records before its first fault. */
export interface ServiceFront extends ServicePacket {
    /** What `readService` throws of it; null of a packet. */
    fault: NbtError | null;
}

/** The header at the front of what came over a connection to port 139, whether or not a packet stands there: RFC 1002 section 4.3.1. */
export interface SessionFront {
    /** TYPE, also one that no packet has. */
    type: number;
    /** FLAGS, all eight bits. */
    flags: number;
    /** How many bytes the body has: LENGTH, and 65,536 where the lowest bit of FLAGS is set. */
    bodyLength: number;
}

/** A line of a capture: a payload that came to port 137, 138 or 139, or what the clock shows. Moments are in milliseconds. */
export type Line =
    | { kind: 'packet'; port: number; moment: bigint; payload: Uint8Array }
    | { kind: 'tick'; moment: bigint };

/** A packet of the session service, port 139: RFC 1002 section 4.3. */
export interface SessionPacket {
    type: number;
    body: Uint8Array;
    used: number;
    /** CALLED_NAME and CALLING_NAME as texts; null but in a request. */
    called: string | null;
    calling: string | null;
    /** Whom to call instead: RETARGET_IP_ADDRESS and PORT; null but in a retarget. */
    retarget: { address: string; port: number } | null;
}

/** What a request of the name service says. `timeToLive` is in seconds; 0 stands for a number or address that isn't given. */
export interface Request {
    identifier: number;
    name: string;
    broadcast?: boolean;
    timeToLive?: number;
    flags?: number;
    address?: Address;
}

/** What a response of the name service says, which has one answer about a name and nothing else. `timeToLive` is in seconds. */
export interface Response {
    identifier: number;
    /** The whole word of flags, of enum nbt_word, written as it is. */
    word: number;
    name: string;
    /** RR_TYPE, as of enum nbt_record_type. */
    type: number;
    timeToLive?: number;
    /** RDATA: of type NS the spelling of a name, of another any bytes; none without it. */
    data?: Bytes;
}

/** How many keys there may be, and how many of one address, which has no limit without it. */
export interface Limits {
    keys?: number;
    perSource?: number;
}

/** A datagram that is handed over. */
export interface Delivery extends Key {
    type: number;
    source: string;
    destination: string;
    data: Uint8Array;
}

/** What became of a payload. */
export interface Taken {
    outcome: TakenOutcome;
    /** The key of a fragment's datagram; null, 0 and 0 of anything else. */
    address: string | null;
    port: number;
    identifier: number;
    /** At DELIVERED. */
    delivery: Delivery | null;
    /** The packet to be sent to where the payload came from, if there is one. */
    error: Uint8Array | null;
    /** At REFUSED: what `readDatagram` throws of the payload. */
    refusal: NbtError | null;
}

/** A station: the datagrams that its names hear are handed over once, by the payload that makes them whole. */
export interface Station {
    /** Takes a payload of port 138. NbtError: MISPLACED_FIRST, LONG, FULL_SOURCE, FULL, NO_MEMORY. */
    take(moment: Moment, payload: Bytes): Taken;
    /** Drops each key that came at least 2,000 milliseconds before, and answers how many. */
    tick(now: Moment): number;
    /** Its table, saved. */
    save(): Uint8Array;
    /** What `list` says of its table. */
    list(): string;
    /** Joins another station's saved table: the datagrams that become whole by it and are heard, by ascending key. */
    absorb(moment: Moment, table: Bytes): Delivery[];
    /** Gives the station back; a second time does nothing. */
    close(): void;
}

/** The calls of nbt.h, over one module with a memory of its own. What is answered is the caller's. */
export interface Nbt {
    /** Without it keys is NBT_KEYS of nbt.h, port 138. NbtError: BAD_TEXT, LONG_TEXT, NAME_PRESENT, TOO_MANY_NAMES. */
    readonly Station: new (names: Iterable<string>, address: Address, options?: Limits & { port?: number }) => Station;
    /** The words of a status. */
    words(status: number): string;
    /** The spelling of the name with this text: 'FRED<20>'. */
    spell(text: string): Uint8Array;
    /** The text of the name with this spelling. */
    text(spelling: Bytes): string;
    /** What the command `nbt show` prints of a payload that came to this port. */
    show(port: number, payload: Bytes): string;
    /** The object of JSON that `nbt show --json` prints of it, without the members of a capture's line. */
    json(port: number, payload: Bytes): string;
    /** The phrase that `nbt show --brief` prints of it: who asks, claims, answers or sends what. */
    brief(port: number, payload: Bytes): string;
    /** The version of the library, as '0.1.0'. */
    version(): string;
    /** Places count from the offset. */
    readDatagram(payload: Bytes, offset?: number): Datagram;
    /** What stands of a payload, also of one that `readDatagram` refuses. NbtError: TRUNCATED where the header isn't there whole. */
    readDatagramFront(payload: Bytes, offset?: number): DatagramFront;
    /** The packets of a datagram, in order. */
    writeDatagram(datagram: DatagramToWrite): Uint8Array[];
    writeDatagramError(error: DatagramErrorToWrite): Uint8Array;
    writeDatagramQuery(query: DatagramQueryToWrite): Uint8Array;
    /** Places count from the offset. NbtError: TRUNCATED, NAME_TRUNCATED, NAME_RESERVED_LABEL, NAME_LONG, NAME_BAD_POINTER, NAME_RDATA. */
    readService(payload: Bytes, offset?: number): ServicePacket;
    /** What stands of a payload, also of one that `readService` refuses. NbtError: TRUNCATED where the header isn't there whole. */
    readServiceFront(payload: Bytes, offset?: number): ServiceFront;
    /** NbtError: MORE where the packet isn't there whole. */
    readSession(payload: Bytes, offset?: number): SessionPacket;
    /** The header at the front, also of what `readSession` refuses. NbtError: MORE where its four bytes aren't there. */
    readSessionFront(payload: Bytes, offset?: number): SessionFront;
    /** A line of a capture, a text or its bytes, without its line feed; null where it is empty or a comment. NbtError: BAD_LINE. */
    readLine(line: string | Bytes): Line | null;
    writeSession(type: number, body?: Bytes): Uint8Array;
    request(kind: RequestKind, request: Request): Uint8Array;
    /** The spelling of the name of a server, which is RDATA of type NS: so many bytes of a payload of port 137, from a place on. Pointers in
     * it are followed. NbtError: NAME_TRUNCATED, NAME_RESERVED_LABEL, NAME_LONG, NAME_BAD_POINTER, NAME_RDATA, whose places count in the payload. */
    readDomain(payload: Bytes, place: number, length: number): Uint8Array;
    /** NbtError: BAD_TEXT, LONG_TEXT, of type NS NAME_TRUNCATED to NAME_LONG and NAME_TRAILING_BYTES, whose places count in the data, LONG_DATA. */
    response(response: Response): Uint8Array;
    /** Joins two saved tables; without it keys is NBT_MOST_KEYS of nbt.h. */
    merge(first: Bytes, second: Bytes, limits?: Limits): Uint8Array;
    /** What the command `nbt list` prints of a saved table. */
    list(table: Bytes): string;
    /** The objects of JSON that `nbt list --json` prints of it, a line each. */
    tableJson(table: Bytes): string;
    /** The least key at which two saved tables differ, by address, port and identifier; null where they know the same. */
    differ(first: Bytes, second: Bytes): Key | null;
}

export interface LoadOptions {
    /** nbt.wasm: its place, its bytes, or the module. Without it the file beside nbt.mjs is taken. */
    module?: string | URL | Bytes | WebAssembly.Module;
    /** How many bytes its memory may have, at most; 2 to the 30th without it. */
    limit?: number;
}

/** Loads the module. An Error says where the engine has no memory64. */
export declare function load(options?: LoadOptions): Promise<Nbt>;
