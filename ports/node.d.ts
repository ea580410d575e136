// Those parts of Node's own modules that node.js and batch.js use, beside those of web/types/node.d.ts.

declare module 'node:fs' {
  export function readSync(descriptor: number, room: Uint8Array): number;
  export function writeSync(descriptor: number, bytes: Uint8Array): number;
}

declare module 'node:process' {
  const process: {
    argv: string[];
    platform: string;
    exitCode: number | undefined;
    stdin: AsyncIterable<Uint8Array>;
    cpuUsage(): { user: number; system: number };
  };
  export default process;
}

declare module 'node:readline' {
  export function createInterface(options: { input: AsyncIterable<Uint8Array> }): AsyncIterable<string>;
}
