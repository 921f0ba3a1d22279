/** The library's calls that the page's model makes, by the program: children that answer each line with a line, for tests in node. */
import { execFileSync, spawn } from 'node:child_process';
import { closeSync, mkdtempSync, openSync, readSync, rmSync, writeSync } from 'node:fs';
import { tmpdir } from 'node:os';
import { join } from 'node:path';

import { digitsOf } from '../src/containers/digits.js';

const PART = 65_536;
const KINDS = new Map([['unique', 0x10], ['group', 0x11], ['broadcast', 0x12], ['error', 0x13], ['find', 0x14], ['found', 0x15], ['missing', 0x16]]);
const lineOf = (port, moment, bytes) => `${port} ${moment} ${digitsOf(bytes) || 'empty'}\n`;

/** A child, asked by a pipe and answering by one, each with a name. */
class Child {
    constructor(program, words) {
        this.folder = mkdtempSync(join(tmpdir(), 'nbt-'));
        const [to, back] = ['to', 'back'].map((each) => join(this.folder, each));
        execFileSync('mkfifo', [to, back]);
        spawn('sh', ['-c', 'exec "$0" "$@" <"$TO" >"$BACK"', program, ...words], { env: { ...process.env, TO: to, BACK: back }, stdio: 'inherit' });
        this.to = openSync(to, 'w');
        this.back = openSync(back, 'r');
        this.rest = '';
    }

    ask(line) {
        for (let left = Buffer.from(line); left.length;) left = left.subarray(writeSync(this.to, left));
        const part = Buffer.alloc(PART);
        while (!this.rest.includes('\n')) {
            const count = readSync(this.back, part);
            if (!count) throw new Error(`the program ended at ${line.slice(0, 80)}`);
            this.rest += part.toString('latin1', 0, count);
        }
        const end = this.rest.indexOf('\n');
        const answer = this.rest.slice(0, end);
        this.rest = this.rest.slice(end + 1);
        return answer;
    }

    close() {
        closeSync(this.to);
        closeSync(this.back);
        rmSync(this.folder, { recursive: true });
    }
}

/** A library that says what the program says; `close` ends it. */
export function libraryBy(program) {
    const [whole, front] = ['--brief', '--partial'].map((option) => new Child(program, ['show', '--json', option]));
    const json = (port, bytes) => whole.ask(lineOf(port, 0, bytes));
    return {
        json,
        brief: (port, bytes) => JSON.parse(json(port, bytes)).brief,
        readServiceFront(bytes) {
            const { questions, answers, authorities, additional } = JSON.parse(front.ask(lineOf(137, 0, bytes)));
            return { counts: [4, 6, 8, 10].map((at) => bytes[at] * 256 + bytes[at + 1]), questions, records: [answers, authorities, additional].flat() };
        },
        readDatagramFront: (bytes) => frontOf(JSON.parse(front.ask(lineOf(138, 0, bytes)))),
        Station: stationsBy(program),
        close: () => [whole, front].forEach((each) => each.close()),
    };
}

function frontOf({ kind, type, key, source, destination, offset }) {
    if (key === undefined) throw Object.assign(new Error('truncated'), { status: 'TRUNCATED' });
    const [, address, port, identifier] = key.match(/^(.*):(\d+)\/(.*)$/);
    return { type: KINDS.get(kind) ?? parseInt(type, 16), address, port: Number(port), identifier: parseInt(identifier, 16), offset: offset ?? 0,
        source: source ?? null, destination: destination ?? null };
}

/** Stations that are `nbt replay`, and list what `nbt list` does. */
function stationsBy(program) {
    return class Station {
        constructor(names, _address, { keys }) {
            this.lines = '';
            this.child = names.length ? new Child(program, ['replay', '--json', '--keys', String(keys), ...names]) : null;
        }

        tick(moment) {
            return JSON.parse(this.child.ask(`tick ${moment}\n`)).count;
        }

        take(moment, bytes) {
            const line = lineOf(138, moment, bytes);
            this.lines += line;
            if (!this.child) return null;
            const { outcome, refused } = JSON.parse(this.child.ask(line));
            if (refused !== undefined) throw Object.assign(new Error(refused), { status: refused.toUpperCase().replace(/\W/g, '_') });
            return { outcome: outcome.toUpperCase() };
        }

        list() {
            return execFileSync(program, ['list'], { input: execFileSync(program, ['save'], { input: this.lines }) }).toString();
        }

        close() {
            this.child?.close();
        }
    };
}
