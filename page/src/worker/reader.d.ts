/** A worker's own reader of files, which the library of types for pages lacks. */
declare class FileReaderSync {
    readAsArrayBuffer(blob: Blob): ArrayBuffer;
}

/** What unpacks, which TypeScript 4.8 doesn't know yet. */
declare class DecompressionStream {
    constructor(format: 'gzip');
    readonly readable: ReadableStream<Uint8Array>;
    readonly writable: WritableStream<Uint8Array>;
}
