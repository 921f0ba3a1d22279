/** Rows on their way to the page. */
import { Texts } from '../model/columns.js';
import { NO_TIME, WORDED, columnsOfRows, type Rows } from '../model/packets.js';

/** A row: where a packet comes from and goes to, what it says, and the words by which it is filtered. */
export interface Row {
    frame: number; time: bigint | null; port: number; source: string;
    destination: string; sender: string; kinds: string; reason: string;
    said: string;
}

export class Batch {
    texts = new Texts();
    sent = 0;
    columns = columnsOfRows();
    said: string[] = [];

    add(row: Row) {
        const { columns, texts } = this;
        columns.frame.push(row.frame);
        columns.time.push(row.time ?? NO_TIME);
        columns.port.push(row.port);
        for (const key of WORDED) columns[key].push(texts.number(row[key]));
        this.said.push(row.said);
    }

    /** The rows since the last time. */
    take(): Rows {
        const { columns, said, texts: { texts } } = this;
        const numbers = Object.fromEntries(Object.entries(columns).map(([key, column]) => [key, column.take()]));
        const taken = { ...numbers, said: said.join('\n'), texts: texts.slice(this.sent) } as any;
        this.said = [];
        this.sent = texts.length;
        return taken;
    }
}
