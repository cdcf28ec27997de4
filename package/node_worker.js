/** A worker of node that runs the programs. */
import { parentPort } from 'node:worker_threads';
import { work } from './worker.js';

work({
    listen: (act) => parentPort?.on('message', act),
    post: (answered, transfer = []) => parentPort?.postMessage(answered, transfer),
});
