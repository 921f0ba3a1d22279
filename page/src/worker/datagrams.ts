/** What becomes of the datagrams of a file, by a station of the library. */
import type { Station } from '../../../bindings/javascript/nbt.mjs';
import { Datagrams } from '../made/datagrams.js';
import { Piece, Pieces } from '../made/pieces.js';
import { PIECES, PORT } from '../made/vocabulary.js';
import { keyOf } from '../model/keys.js';
import { taken, throughStation } from './station.js';
import type { Tap } from './tap.js';

/** A station that has this name alone: whether it hears a datagram or not, it says when one is whole. */
const NAME = '*<00>';

export async function datagramsOf(tap: Tap): Promise<Datagrams> {
    const datagrams = new Datagrams((several: Uint8Array[][]) => several.map((pieces) => keyOf(listOf(tap, pieces).split('\n')[0])));
    for (const names of tap.cut) datagrams.count(names, 'cut');
    const pieces = new Pieces(datagrams.ended.bind(datagrams));
    let [count, moment] = [-1, -1n];
    return throughStation(tap, [NAME], (station, line) => {
        if (line.kind !== 'payload') return;
        count += 1;
        const piece = line.port === PORT.DATAGRAMS ? pieceOf(tap, line, line.row ?? count) : null;
        if (!piece) return;
        if (piece.moment !== moment) pieces.drop(station.tick(piece.moment));
        moment = piece.moment;
        pieces.report(piece, reportOf(station, piece));
    }, () => {
        pieces.finish();
        return datagrams;
    });
}

/** @returns null of a packet that has no piece */
function pieceOf(tap: Tap, { moment, bytes }: { moment: number | bigint, bytes: Uint8Array }, row: number): Piece | null {
    const { key, kind, source, destination, refused } = JSON.parse(tap.library.json(PORT.DATAGRAMS, bytes));
    if (refused !== undefined || !PIECES.includes(kind)) return null;
    return new Piece(BigInt(moment), key, [source, destination, kind], tap.packets.at(row).frame, bytes);
}

/** What a station reports of a piece, as `nbt replay --json` says it. */
function reportOf(station: Station, { moment, data }: Piece) {
    const { outcome, refused } = taken(station, moment, data);
    return refused === null ? { outcome: outcome.toLowerCase() } : { refused };
}

function listOf(tap: Tap, pieces: Uint8Array[]) {
    const station = new tap.library.Station([], '0.0.0.0', { keys: 1 });
    try {
        for (const each of pieces) station.take(0, each);
        return station.list();
    } finally {
        station.close();
    }
}
