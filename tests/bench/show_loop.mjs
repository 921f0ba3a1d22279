// What show of nbt.mjs costs: the same as nbt_show by tests/bench/service_loop.c. Usage: node show_loop.mjs FOLDER ROUNDS <CAPTURE
import { readFileSync } from 'node:fs';
import { pathToFileURL } from 'node:url';

const [folder, rounds] = process.argv.slice(2);
const { load } = await import(pathToFileURL(`${folder}/nbt.mjs`));
const nbt = await load();
const payloads = [];
for (const line of readFileSync(0, 'latin1').split('\n')) {
    const [port, , digits] = line.split(' ');
    if (/^\d/.test(line)) payloads.push([Number(port), Buffer.from(digits === 'empty' ? '' : digits, 'hex')]);
}
const began = process.cpuUsage();
let size = 0;
for (let round = 0; round < rounds; round += 1) for (const [port, payload] of payloads) size += nbt.show(port, payload).length;
const { user, system } = process.cpuUsage(began);
console.log(size, (user + system) * 1000);
