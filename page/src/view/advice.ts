/** What `nbt help` says of a refusal: the words, and what to do then. */

/** Stands in a line for the place of the fault. */
const PLACE = /\bAT\b/g;

export class Advice {
    /** @param lines each as `WORDS AT: advice` or `WORDS: advice` */
    constructor(public lines: string[]) {}

    /** What to do about a refusal; an empty text where nothing is said of it.
     * @param refused as `source name: not netbios 3` */
    of(refused: string) {
        const [, words, place] = /^(?:.*: )?(.*?)(?: (\d+))?$/s.exec(refused) as RegExpExecArray;
        const starts = [`${words}: `, `${words} AT: `];
        for (const line of this.lines) {
            const start = starts.find((each) => line.startsWith(each));
            if (start) return line.slice(start.length).replace(PLACE, place ?? 'there');
        }
        return '';
    }
}

/** A refusal with its place in words: a byte of the payload, or of a name that is no NetBIOS name. */
export function placed(refused: string) {
    return refused.replace(/(not netbios) (\d+)$/, '$1, at byte $2 of the name').replace(/ (\d+)$/, ', at byte $1');
}
