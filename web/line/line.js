// The serial line of one board, by Web Serial, under the guard of whoever has it.

const BAUD_RATE = 9600;
const ROOM = 4096; // bytes that the browser keeps until they are read

/** A port that can't be opened: another program or another tab has it. */
export class Taken extends Error {}

export class SerialLine {
  /** @param {Guard} guard @param {SerialPort} port @param {HearsLine} hears */
  constructor(guard, port, hears) {
    this.guard = guard;
    this.port = port;
    this.hears = hears;
    this.isOpen = false;
    this.closed = false;
    this.reader = /** @type {ReadableStreamDefaultReader<Uint8Array> | null} */ (null);
    this.writer = /** @type {WritableStreamDefaultWriter<Uint8Array> | null} */ (null);
    this.reading = /** @type {Promise<void> | null} */ (null);
  }

  /** Throws Taken if it can't be opened. */
  async open() {
    try {
      await this.port.open({ baudRate: BAUD_RATE, bufferSize: ROOM });
    } catch (error) {
      throw new Taken(error && error.message ? error.message : String(error));
    }
    if (this.closed) {
      await this.port.close().catch(() => {});
      return;
    }
    this.writer = this.port.writable.getWriter();
    this.isOpen = true;
    this.reading = this.read();
  }

  async read() {
    let before = null;
    while (!this.closed && this.port.readable && this.port.readable !== before) {
      before = this.port.readable;
      this.reader = before.getReader();
      try {
        for (;;) {
          const { value, done } = await this.reader.read();
          if (done) break;
          if (value && value.length > 0) this.guard.call(() => this.closed || this.hears.heard(value));
        }
      } catch (error) {
        // A frame garbled on the line leaves the port open, with another stream; a port that is gone has none.
      } finally {
        this.reader.releaseLock();
        this.reader = null;
      }
    }
    if (this.closed) return;
    this.close();
    this.guard.call(() => this.hears.lost());
  }

  /** @type {(bytes: Uint8Array) => void} */
  write(bytes) {
    if (this.writer && !this.closed) this.writer.write(bytes).catch(() => {});
  }

  /** The promise ends when the port can be opened again. */
  async close() {
    if (this.closed) return;
    this.closed = true;
    this.isOpen = false;
    try {
      if (this.reader) await this.reader.cancel();
      await this.reading;
    } catch (error) {
      // It is gone.
    }
    if (!this.writer) return; // another line may have the port open
    try {
      this.writer.releaseLock();
      await this.port.close();
    } catch (error) {
      // It is gone.
    }
  }
}
