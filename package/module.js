/** The module and its workers, in node and in a browser. */

/** What the file beside the module says of it. */
const SHA256 = /^module sha256 ([0-9a-f]{64})$/m;

const isNode = typeof process === 'object' && Boolean(process.versions?.node);

/**
 * Reads a file of the package.
 * @param {string} name
 * @returns {Promise<Uint8Array>}
 */
async function read(name) {
    const place = new URL(name, import.meta.url);
    if (isNode) {
        const { readFile } = await import('node:fs/promises');
        return readFile(place);
    }
    const answer = await fetch(place);
    if (!answer.ok) throw new Error(`${name} is missing (${answer.status})`);
    return new Uint8Array(await answer.arrayBuffer());
}

/**
 * The SHA-256 of some bytes, or nothing where the browser has none to offer.
 * @param {Uint8Array} bytes
 */
async function sumOf(bytes) {
    if (isNode) {
        const { createHash } = await import('node:crypto');
        return createHash('sha256').update(bytes).digest('hex');
    }
    if (!globalThis.crypto?.subtle) return null;
    const sum = await crypto.subtle.digest('SHA-256', bytes);
    return [...new Uint8Array(sum)].map((byte) => byte.toString(16).padStart(2, '0')).join('');
}

/** The compiled module. It is tested first whether it is whole. */
export async function compiled() {
    const [bytes, said] = await Promise.all([read('dw.wasm'), read('dw.wasm.sources')]);
    const wanted = SHA256.exec(new TextDecoder().decode(said))?.[1], sum = await sumOf(bytes);
    if (sum !== null && sum !== wanted) throw new Error('dw.wasm is damaged: dw.wasm.sources has another checksum');
    return WebAssembly.compile(bytes);
}

/**
 * What makes a worker that has the module.
 * @param {WebAssembly.Module} module
 * @returns {Promise<() => any>}
 */
export async function makerOf(module) {
    if (!isNode) {
        return () => {
            const worker = new Worker(new URL('web_worker.js', import.meta.url), { type: 'module' });
            worker.postMessage({ module });
            return worker;
        };
    }
    const { Worker: NodeWorker } = await import('node:worker_threads');
    return () => {
        const thread = new NodeWorker(new URL('node_worker.js', import.meta.url));
        const worker = {
            /** @type {((event: {data: any}) => void) | null} */
            onmessage: null,
            /** @type {((event: {message: string}) => void) | null} */
            onerror: null,
            postMessage: (/** @type {any} */ data) => {
                thread.ref();
                thread.postMessage(data);
            },
            terminate: () => void thread.terminate(),
        };
        thread.on('message', (data) => {
            thread.unref();
            worker.onmessage?.({ data });
        });
        thread.on('error', (error) => worker.onerror?.({ message: String(error) }));
        worker.postMessage({ module });
        thread.unref();
        return worker;
    };
}

/** How many processors there are. */
export const processors = async () =>
    Math.max(1, isNode ? (await import('node:os')).cpus().length : navigator.hardwareConcurrency || 2);
