// Those parts of Node's own modules that engine and tests use. Debian's typescript brings no types of Node.

declare module 'node:assert/strict' {
  interface Assert {
    (value: unknown, message?: string): asserts value;
    ok(value: unknown, message?: string): asserts value;
    equal(actual: unknown, expected: unknown, message?: string): void;
    notEqual(actual: unknown, expected: unknown, message?: string): void;
    deepEqual(actual: unknown, expected: unknown, message?: string): void;
    match(text: string, pattern: RegExp, message?: string): void;
    throws(call: () => unknown, expected?: RegExp | object | Function, message?: string): void;
    rejects(promise: Promise<unknown> | (() => Promise<unknown>), expected?: RegExp | object | Function, message?: string): Promise<void>;
  }
  const assert: Assert;
  export default assert;
}

declare module 'node:test' {
  interface Options { skip?: boolean | string; timeout?: number }
  type Body = () => void | Promise<void>;
  interface Test {
    (name: string, body: Body): Promise<void>;
    (name: string, options: Options, body: Body): Promise<void>;
  }
  const test: Test;
  export default test;
}

declare module 'node:fs' {
  export function existsSync(path: string | URL): boolean;
  export function readFileSync(path: string | URL): Uint8Array;
  export function readFileSync(path: string | URL, encoding: 'utf8'): string;
  export function readdirSync(path: string | URL): string[];
  export function mkdirSync(path: string | URL): void;
  export function mkdtempSync(prefix: string): string;
  export function rmSync(path: string | URL, how?: { recursive?: boolean; force?: boolean }): void;
  export function writeFileSync(path: string | URL, data: string | Uint8Array): void;
}

declare module 'node:crypto' {
  interface Hash { update(data: string | Uint8Array): this; digest(encoding: 'hex' | 'base64'): string }
  export function createHash(algorithm: 'sha256'): Hash;
}

declare module 'node:os' {
  export function tmpdir(): string;
}

declare module 'node:zlib' {
  export function inflateSync(data: Uint8Array): Uint8Array;
  export function deflateSync(data: Uint8Array): Uint8Array;
}

declare module 'node:buffer' {
  export const Buffer: {
    from(text: string, encoding: 'utf8' | 'base64' | 'latin1'): Uint8Array;
    byteLength(text: string): number;
  };
}

declare module 'node:fs/promises' {
  export function readFile(path: string | URL): Promise<Uint8Array>;
}

declare module 'node:child_process' {
  interface Result { status: number | null; stdout: Uint8Array; stderr: Uint8Array }
  interface Options { input?: string | Uint8Array; maxBuffer?: number; cwd?: string | URL; env?: { [name: string]: string | undefined } }
  export function spawnSync(command: string | URL, words: string[], options?: Options): Result;
}

declare module 'node:process' {
  export const env: { [name: string]: string | undefined };
}

declare module 'node:url' {
  export function fileURLToPath(url: string | URL): string;
}

declare module 'node:worker_threads' {
  interface Port {
    on(event: 'message', listener: (message: any) => void): this;
    postMessage(message: unknown, transfer?: unknown[]): void;
  }
  export const parentPort: Port | null;
  export class Worker {
    constructor(file: string | URL);
    on(event: 'message', listener: (message: any) => void): this;
    on(event: 'error', listener: (fault: Error) => void): this;
    on(event: 'exit', listener: (status: number) => void): this;
    postMessage(message: unknown, transfer?: unknown[]): void;
    terminate(): Promise<number>;
    unref(): void;
    ref(): void;
  }
}
