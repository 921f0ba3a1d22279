// Calls whose types have to be those of nbt.d.mts, for tsc --strict. It isn't run.
import { load, NbtError, Status } from '../nbt.mjs';
import type { DatagramFront, Delivery, Key, Line, Nbt, Response, ServicePacket, SessionFront, SessionPacket, Station, Taken } from '../nbt.mjs';

const nbt: Nbt = await load({ module: new URL('nbt.wasm', import.meta.url), limit: 1 << 24 });
const pieces: Uint8Array[] = nbt.writeDatagram({ type: 0x10, identifier: 1, address: 5, source: 'A<00>', destination: 'B<20>', data: new ArrayBuffer(4) });
const station: Station = new nbt.Station(new Set(['B<20>']), '10.0.0.5', { keys: 5, port: 138 });
const taken: Taken = station.take(5n, pieces[0]);
if (taken.outcome === 'DELIVERED' && taken.delivery) {
    const delivery: Delivery = taken.delivery;
    const length: number = delivery.data.length + delivery.source.length;
    nbt.show(138, new DataView(new ArrayBuffer(length)));
}
const name: string | null = nbt.readDatagram(pieces[0], 0).source;
const joined: Uint8Array = nbt.merge(station.save(), station.save(), { perSource: 4 });
const count: number = station.absorb(0, joined).length + station.tick(9) + Status.DONE;
const key: Key | null = nbt.differ(joined, station.save());
const packet: SessionPacket = nbt.readSession(nbt.writeDatagramError({ identifier: key?.identifier ?? 0, address: 5, code: 0x82 }));
if (packet.retarget) nbt.writeDatagramQuery({ type: 0x14, identifier: 1, ...packet.retarget, name: packet.called ?? nbt.brief(139, joined) });
const lines: string = station.list() + nbt.tableJson(joined);
try {
    nbt.request('nodeStatus', { identifier: count, name: name ?? '*<00>' });
} catch (error) {
    if (error instanceof NbtError) nbt.words(error.number + (error.at ?? 0)).concat(error.status, String((error.missing ?? 0) + 1));
}

const front: DatagramFront = nbt.readDatagramFront(pieces[0], 1);
const claimed: ServicePacket = nbt.readService(pieces[0]), cut: NbtError | null = nbt.readServiceFront(pieces[0], 1).fault;
const named: Uint8Array | null = claimed.records[0].server;
const header: SessionFront = nbt.readSessionFront(packet.body, 0);
const answer: Response = { identifier: front.identifier, word: 0x8580, name: front.source ?? '*<00>', type: 0x20, data: new ArrayBuffer(6) };
nbt.show(137, nbt.response({ ...answer, timeToLive: front.port }));
const server: Uint8Array = nbt.readDomain(new ArrayBuffer(60), 56, 4);
nbt.text(server);
const line: Line | null = nbt.readLine(lines) ?? nbt.readLine(server);
if (line?.kind === 'packet') station.take(line.moment, line.payload).port.toFixed(line.port);

// @ts-expect-error A line that is what the clock shows has no payload.
line?.payload;
// @ts-expect-error A front has no data.
front.data;
// @ts-expect-error A response has a type.
nbt.response({ identifier: 1, word: 0x8500, name: 'A<00>' });
// @ts-expect-error A text is no buffer.
nbt.show(138, '85');
// @ts-expect-error No request has this name.
nbt.request('claim', { identifier: 1, name: 'A<00>' });
// @ts-expect-error A status can't be written.
Status.DONE = 1;
// @ts-expect-error An outcome that there isn't.
if (taken.outcome === 'LOST') station.close();
// @ts-expect-error What may be null.
taken.delivery.data;
// @ts-expect-error Nor has every packet a retarget.
packet.retarget.port;
// @ts-expect-error An error has no type of its own.
nbt.writeDatagramError({ type: 0x13, identifier: 1, address: 5, code: lines.length });
