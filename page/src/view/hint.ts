/** What is said where the filter leaves no row: what the box takes, and words in place of a filter of Wireshark. */
import { KINDS, SERVICES } from '../made/vocabulary.js';

/** A comparison of Wireshark: a field, how it is compared, and the value. */
const COMPARISON = /([a-z][\w.]*)\s*(==|eq\b|~|matches\b|contains\b)\s*("[^"]*"|[^\s&|()]+)/gi;
const SYNTAX = /==|!=|&&|\|\||\b(?:ip|ipv6|eth|tcp|udp|frame|nbns|nbdgm|nbss|netbios)\.\w|\b(?:contains|matches)\b/i;
/** The port of each protocol, by its name in Wireshark. */
const PROTOCOLS = new Map([['nbns', '137'], ['nbdgm', '138'], ['nbss', '139']]);
/** Of these fields the value is a word that the box takes. */
const WORDS = /^(?:ipv?6?\.(?:addr|src|dst|host)|(?:nbns|nbdgm|netbios)\..*name|nbdgm\.src\.ip)$/i;
const PORTED = /^(?:udp|tcp)\.(?:port|srcport|dstport)$/i;

export const TAKES = `The box takes words, of which each has to fit: a part of a name, of an address or of what is said; ${SERVICES.join(', ')}; or a kind: ${KINDS.join(', ')}.`;

/** @returns what is said, and words to be tried instead, if there are any */
export function hintOf(words: string): { text: string, instead: string } {
    if (!words.trim()) return { text: 'No packet is of all that is chosen.', instead: '' };
    if (!SYNTAX.test(words) && !PROTOCOLS.has(words.trim().toLowerCase())) return { text: `No row fits “${words.trim()}”. ${TAKES}`, instead: '' };
    return { text: `“${words.trim()}” is a filter of Wireshark. ${TAKES}`, instead: wordsOf(words) };
}

/** The words that come nearest to a filter of Wireshark; an empty text where there are none. */
function wordsOf(filter: string) {
    const found = [...filter.matchAll(COMPARISON)].flatMap(([, field, , value]) => {
        const plain = value.replace(/"/g, '');
        return WORDS.test(field) || (PORTED.test(field) && SERVICES.includes(plain)) ? [plain] : [];
    });
    const protocols = filter.toLowerCase().split(/[^a-z.]+/).flatMap((each) => PROTOCOLS.get(each.split('.')[0]) ?? []);
    return [...new Set([...found, ...protocols])].join(' ');
}
