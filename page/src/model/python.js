/** What Python has in another way than JavaScript: the modules in ../made, which tools/making makes of the tools' own, call it as py. */
// @ts-nocheck
import { digitsOf } from '../containers/digits.js';
import { Growing } from '../containers/growing.js';

/** The latest key of several words, and its text: the next call often has the same one. */
let [latest, text] = [null, ''];

/** A key as a Map tells it apart: of several words their text. */
function keyOf(key) {
    if (typeof key !== 'object' || key === null) return key;
    if (key === latest) return text;
    let made = '';
    for (const each of key) made += `${keyOf(each)}\0`;
    [latest, text] = [key, made];
    return made;
}

/** Entries by keys, which may be lists, in the order in which they came. */
export class Dict {
    constructor(pairs = []) {
        this.pairs = new Map();
        this.walk = this.pairs.values();
        this.front = undefined;
        for (const [key, value] of pairs) this.set(key, value);
    }

    get size() {
        return this.pairs.size;
    }

    has(key) {
        return this.pairs.has(keyOf(key));
    }

    get(key, missing = null) {
        const found = this.pairs.get(keyOf(key));
        return found === undefined ? missing : found[1];
    }

    set(key, value) {
        const text = keyOf(key);
        const found = this.pairs.get(text);
        if (found === undefined) this.pairs.set(text, [key, value]);
        else found[1] = value;
    }

    delete(key) {
        this.pairs.delete(keyOf(key));
    }

    items() {
        return Array.from(this.pairs.values());
    }

    keys() {
        return Array.from(this.pairs.values(), ([key]) => key);
    }

    values() {
        return Array.from(this.pairs.values(), ([, value]) => value);
    }

    /** The first key. What came before it is gone, and isn't passed over again. */
    first() {
        if (!this.front || this.pairs.get(keyOf(this.front[0])) !== this.front) {
            this.front = this.walk.next().value ?? (this.walk = this.pairs.values()).next().value;
        }
        return this.front?.[0];
    }
}

const isDict = (it) => it instanceof Dict;

// ---- What is true, and which are the same.

export const len = (it) => it.length ?? it.size;
export const is = (it) => (typeof it === 'object' && (Array.isArray(it) || isDict(it)) ? len(it) > 0 : Boolean(it));
export const or = (one, other) => (is(one) ? one : other());
export const and = (one, other) => (is(one) ? other() : one);
export const any = (items) => items.some(is);
export const all = (items) => items.every(is);
export const same = (one, other) => one === other || (Array.isArray(one) && Array.isArray(other) && one.length === other.length && one.every((each, at) => same(each, other[at])));

// ---- Lists and entries.

export function list(it) {
    if (Array.isArray(it)) return it;
    if (isDict(it)) return it.keys();
    return it[Symbol.iterator] ? Array.from(it) : Object.keys(it);
}

export const iter = (it) => it;

export const next = (it) => (isDict(it) ? it.first() : list(it)[0]);
export const items = (it) => (isDict(it) ? it.items() : Object.entries(it));
export const values = (it) => (isDict(it) ? it.values() : Object.values(it));
export const zip = (one, other) => list(one).map((each, at) => [each, other[at]]);
export const slice = (it, from, to) => it.slice(from, to);
export const extend = (it, more) => (Array.isArray(it) ? it.push(...more) : it.push(more));
export const insert = (it, place, each) => it.splice(place, 0, each);

export function has(it, each) {
    if (isDict(it)) return it.has(each);
    if (Array.isArray(it)) return Array.isArray(each) ? it.some((one) => same(one, each)) : it.includes(each);
    return typeof it === 'string' ? it.includes(each) : each in it;
}

export function get(it, key, missing = null) {
    if (typeof it.get === 'function') return it.get(key, missing);
    return key in it ? it[key] : missing;
}

export function at(it, key) {
    if (isDict(it)) return it.get(key);
    return typeof key === 'number' && key < 0 ? it.at(key) : it[key];
}

export function put(it, key, value) {
    if (isDict(it)) it.set(key, value);
    else it[key] = value;
}

/** Takes away an entry, or of a list as many as there are before a place. */
export function remove(it, key, isFront) {
    if (isDict(it)) it.delete(key);
    else if (it instanceof Growing) it.drop(key);
    else it.splice(isFront ? 0 : key, isFront ? key : 1);
}

export function pop(it, key, missing = null) {
    if (Array.isArray(it)) return key === 0 ? it.shift() : it.pop();
    const found = it.get(key, missing);
    it.delete(key);
    return found;
}

export function setdefault(it, key, value) {
    if (!it.has(key)) it.set(key, value);
    return it.get(key);
}

export function clear(it) {
    if (isDict(it)) it.pairs.clear();
    else it.length = 0;
}

// ---- Numbers and order.

/** Before (less than 0), the same (0) or behind. */
function order(one, other) {
    if (!Array.isArray(one)) return Number(one > other) - Number(one < other);
    const place = one.findIndex((each, at) => !same(each, other[at]));
    return place < 0 || place >= other.length ? one.length - other.length : order(one[place], other[place]);
}

/** Places in lists that are in order. */
export const bisect = {
    bisect_right(items, each) {
        let [from, to] = [0, items.length];
        while (from < to) {
            const middle = (from + to) >> 1;
            if (order(each, items[middle]) < 0) to = middle;
            else from = middle + 1;
        }
        return from;
    },

    insort(items, each) {
        items.splice(bisect.bisect_right(items, each), 0, each);
    },
};

export const sorted = (items, key = (it) => it) => list(items).map((each) => [key(each), each]).sort(([one], [other]) => order(one, other)).map(([, each]) => each);
const greater = (one, other) => (other > one ? other : one);
const less = (one, other) => (other < one ? other : one);
/** Of two, or of a list. */
export const max = (one, other) => (other === undefined ? one.reduce(greater) : greater(one, other));
export const min = (one, other) => (other === undefined ? one.reduce(less) : less(one, other));
export const sum = (items) => items.reduce((all, each) => all + Number(each), 0);
export const int = (text, base = 10) => parseInt(text, base);
export const modulo = (number, divisor) => ((number % divisor) + divisor) % divisor;

// ---- Bytes and texts.

export const hex = digitsOf;

export function bytearray(bytes = new Uint8Array(0)) {
    const made = new Growing();
    made.push(bytes);
    return made;
}

export const str = String;
export const isdigit = (text) => /^[0-9]+$/.test(text);

export function strip(text, letters) {
    let [from, to] = [0, text.length];
    while (from < to && letters.includes(text[from])) from += 1;
    while (from < to && letters.includes(text[to - 1])) to -= 1;
    return text.slice(from, to);
}

export const removeprefix = (text, front) => (text.startsWith(front) ? text.slice(front.length) : text);

const cutAt = (text, between, place) => [text.slice(0, place), between, text.slice(place + between.length)];
export const partition = (text, between) => (text.includes(between) ? cutAt(text, between, text.indexOf(between)) : [text, '', '']);
export const rpartition = (text, between) => (text.includes(between) ? cutAt(text, between, text.lastIndexOf(between)) : ['', '', text]);

/** A text in which each %s and %d stands for the next word. */
export function format(text, words) {
    const left = [...words];
    return text.replace(/%[sd]/g, () => left.shift());
}
