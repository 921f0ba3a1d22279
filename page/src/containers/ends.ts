/** An address and a port, as one text: `10.0.0.5:137`, `[fe80::5]:137`. */

/** An address, of IPv6 in brackets, and perhaps a port. */
const END = /^(?:\[(.*?)\]|([^:]*))(?::(.*))?$/;
/** Of how many ends the parts are known at most. */
const MOST_KNOWN = 65_536;
export type Parts = { host: string, port: string };
const known = new Map<string, Parts>();

/** An end in its parts, of which the port is an empty text where there is none: those of ends that come often are known. */
export function partsOf(end: string): Parts {
    const found = known.get(end);
    if (found) return found;
    const [, six, four = end, port = ''] = END.exec(end) ?? [];
    const parts = { host: six ?? four, port };
    if (known.size >= MOST_KNOWN) known.clear();
    known.set(end, parts);
    return parts;
}

/** An end as it is shown: without a port that is the service's own. */
export function shown(end: string, own: readonly string[]) {
    if (end === '') return '-';
    const { host, port } = partsOf(end);
    return port === '' || own.includes(port) ? host : end;
}
