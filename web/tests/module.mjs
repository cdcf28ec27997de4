/* Runs the programs of the module, one call for each line of JSON on standard input, and answers with a line each.

   node module.mjs MODULE

   A line has the arguments `words`, the standard input `input` in base 64, and perhaps `memory`, `room` and `refused`,
   as `Engine.attempt` takes them. With `bytes` in place of `words` the arguments are these bytes, in base 64. */
import { readFileSync } from 'node:fs';
import { createInterface } from 'node:readline';
import { Engine } from '../../package/engine.js';

const engine = new Engine(await WebAssembly.compile(readFileSync(process.argv[2])));

for await (const line of createInterface({ input: process.stdin })) {
    const { words, bytes, input, ...bounds } = JSON.parse(line);
    const text = Buffer.from(input, 'base64');
    const asked = bytes === undefined ? words : Buffer.from(bytes, 'base64');
    const begun = process.cpuUsage();
    const isBounded = Object.keys(bounds).length > 0 || bytes !== undefined;
    const answer = isBounded ? engine.attempt(asked, text, bounds) : engine.run(asked, text);
    const took = process.cpuUsage(begun).user / 1e6;
    console.log(JSON.stringify({ ...answer, report: Buffer.from(answer.report).toString('base64'), took }));
}
