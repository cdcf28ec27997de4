/** What browsers have and the types that come with the compiler lack. */
declare class DecompressionStream {
    constructor(format: 'deflate');
    readonly readable: ReadableStream<Uint8Array>;
    readonly writable: WritableStream<Uint8Array>;
}
