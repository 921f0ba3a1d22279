// Prints the tables that the page has of pcap files, a line of JSON for each: by title the columns, and rows of texts as the page shows them.
// tests/lib/bundled.py makes what node runs, with PROGRAM FILE.. after it.
import { MARK, TABLES, headOf, shownAs } from '../src/view/tables.js';
import { datagramsOf } from '../src/worker/datagrams.js';
import { Tap } from '../src/worker/tap.js';
import { readFrames } from './building.mjs';
import { libraryBy } from './program.mjs';

const [program, ...paths] = process.argv.slice(2);
const library = libraryBy(program);

/** A file as the page keeps it. */
function tapOf(path) {
    const tap = new Tap(new Blob(), '', library);
    tap.first = readFrames(path, (item) => tap.take(item)).first;
    return tap;
}

for (const path of paths) {
    const tap = tapOf(path);
    const datagrams = await datagramsOf(tap);
    const tables = { ...tap.seen.tables(tap.first), datagrams: datagrams.rows(), failed: datagrams.failed.rows() };
    const text = (title, row, column, at) => (row.marked && !at ? MARK : '') + shownAs(title, row, column);
    const shown = TABLES.filter(({ key }) => tables[key]?.length).map(({ key, title, columns }) =>
        [title, { columns: columns.map(headOf), rows: tables[key].map((row) => columns.map((each, at) => text(title, row, each, at))) }]);
    const notes = tap.seen.summed.notes();
    if (notes.length) shown.push(['note', { columns: [], rows: notes.map((each) => [each]) }]);
    console.log(JSON.stringify(Object.fromEntries(shown)));
}
library.close();
process.exit();
