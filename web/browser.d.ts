// What the page uses of a browser and TypeScript 4.8 doesn't know: Web Serial, files, the screen, WebAssembly that is suspended.

interface SerialPortInfo {
  usbVendorId?: number;
  usbProductId?: number;
}

interface SerialPort {
  readonly readable: ReadableStream<Uint8Array> | null;
  readonly writable: WritableStream<Uint8Array>; // once it is open
  open(options: { baudRate: number; bufferSize: number }): Promise<void>;
  close(): Promise<void>;
  getInfo(): SerialPortInfo;
}

interface Serial {
  getPorts(): Promise<SerialPort[]>;
  requestPort(): Promise<SerialPort>;
  addEventListener(kind: 'connect', listener: (event: { target: SerialPort }) => void): void;
}

interface WakeLockSentinel {
  readonly released: boolean;
  release(): Promise<void>;
}

interface Navigator {
  readonly serial: Serial;
  readonly userAgentData?: { readonly platform: string };
  readonly wakeLock: { request(kind: 'screen'): Promise<WakeLockSentinel> };
}

interface FileSystemHandle {
  queryPermission(wanted: { mode: string }): Promise<PermissionState>;
  requestPermission(wanted: { mode: string }): Promise<PermissionState>;
}

interface FileSystemWritableFileStream {
  write(content: string | { type: 'write'; position: number; data: Uint8Array }): Promise<void>;
  close(): Promise<void>;
  abort(): Promise<void>;
}

interface FileSystemFileHandle {
  createWritable(options: { keepExistingData: boolean }): Promise<FileSystemWritableFileStream>;
}

interface Window {
  showDirectoryPicker(options: { id: string; mode: string }): Promise<FileSystemDirectoryHandle>;
}

declare class DecompressionStream {
  constructor(format: 'gzip');
  readonly readable: ReadableStream<Uint8Array>;
  readonly writable: WritableStream<Uint8Array>;
}

declare const scheduler: { postTask(task: () => void): Promise<void> };

declare namespace WebAssembly {
  const Suspending: new (call: (stream: number, at: bigint, length: bigint) => Promise<bigint>) => Function;
  function promising(call: ExportValue): (most: bigint) => Promise<number>;
}
