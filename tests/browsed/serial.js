/**
 * A `navigator.serial` as the standard has it, for boards that a test plays: evaluated before the page's own scripts.
 *
 * What the page does with a port is told to the test by the binding `tellBoards`, as JSON: {what: "began"}, "open", "write"
 * (with the bytes in base64), "close", "ask" (for a port, with whether one was chosen). The test calls `boards.deliver(port,
 * base64)`, `boards.unplug(port)`, `boards.plug(port, isGranted)`, `boards.lock(port, isLocked)` for one that may not be opened,
 * and `boards.choose(port)` for what the user will choose next.
 *
 * Each port is {number, isGranted, isPlugged} at the start.
 */
function provideSerial(start) {
  const DEVICE = { usbVendorId: 0x0403, usbProductId: 0x6001 }; // the same for all boards, as they have one kind of chip
  const tell = (message) => window.tellBoards(JSON.stringify(message));
  const lost = () => new DOMException("The device has been lost.", "NetworkError");
  const devices = new Map(); // by number
  let chosen = null;

  function base64Of(bytes) {
    return btoa(String.fromCharCode(...bytes));
  }

  class SerialPort extends EventTarget {
    #device;
    #isOpen = false;
    #reading = null;
    #writing = null;
    #streams = { readable: null, writable: null };
    onconnect = null;
    ondisconnect = null;

    constructor(device) {
      super();
      this.#device = device;
      device.port = this;
      device.deliver = (bytes) => this.#reading?.enqueue(bytes);
      device.lose = () => this.#lose();
    }

    get connected() {
      return this.#device.isPlugged;
    }

    get readable() {
      return this.#streams.readable;
    }

    get writable() {
      return this.#streams.writable;
    }

    getInfo() {
      return { ...DEVICE };
    }

    async open(options) {
      if (this.#isOpen) {
        throw new DOMException("The port is already open.", "InvalidStateError");
      }
      if (!(options?.baudRate > 0) || options.bufferSize <= 0) {
        throw new TypeError("Failed to execute 'open' on 'SerialPort'");
      }
      if (!this.#device.isPlugged || this.#device.isLocked) {
        throw new DOMException("Failed to open serial port.", "NetworkError");
      }
      this.#isOpen = true;
      const number = this.#device.number;
      const size = options.bufferSize ?? 255;
      this.#streams.readable = new ReadableStream(
        {
          type: "bytes",
          start: (controller) => {
            this.#reading = controller;
          },
          cancel: () => {
            this.#reading = null;
            this.#streams.readable = null;
          },
        },
        { highWaterMark: size },
      );
      this.#streams.writable = new WritableStream({
        start: (controller) => {
          this.#writing = controller;
        },
        write: (chunk) => {
          if (!ArrayBuffer.isView(chunk) && !(chunk instanceof ArrayBuffer)) {
            throw new TypeError("not a BufferSource");
          }
          const bytes = ArrayBuffer.isView(chunk) ? new Uint8Array(chunk.buffer, chunk.byteOffset, chunk.byteLength) : new Uint8Array(chunk);
          tell({ what: "write", port: number, bytes: base64Of(bytes) });
        },
      });
      tell({ what: "open", port: number, baudRate: options.baudRate });
    }

    async close() {
      if (!this.#isOpen) {
        throw new DOMException("The port is already closed.", "InvalidStateError");
      }
      const { readable, writable } = this.#streams;
      if (readable?.locked || writable?.locked) {
        throw new TypeError("Cannot cancel a locked stream");
      }
      await readable?.cancel();
      await writable?.abort();
      this.#streams.readable = this.#streams.writable = this.#reading = this.#writing = null;
      this.#isOpen = false;
      tell({ what: "close", port: this.#device.number });
    }

    async forget() {
      this.#device.isGranted = false;
    }

    #lose() {
      this.#reading?.error(lost());
      this.#writing?.error(lost());
      this.#streams.readable = this.#streams.writable = this.#reading = this.#writing = null;
    }
  }

  class Serial extends EventTarget {
    onconnect = null;
    ondisconnect = null;

    async getPorts() {
      return [...devices.values()].filter((device) => device.isGranted && device.isPlugged).map((device) => device.port);
    }

    async requestPort() {
      if (!navigator.userActivation.isActive) {
        const told = "Failed to execute 'requestPort' on 'Serial': Must be handling a user gesture to show a permission request.";
        throw new DOMException(told, "SecurityError");
      }
      const device = devices.get(chosen);
      chosen = null;
      tell({ what: "ask", wasChosen: Boolean(device) });
      if (!device) {
        throw new DOMException("Failed to execute 'requestPort' on 'Serial': No port selected by the user.", "NotFoundError");
      }
      device.isGranted = true;
      return device.port;
    }
  }

  const serial = new Serial();

  /** An event at a port, which goes on to navigator.serial with the port as its target. */
  function happens(kind, port) {
    port.dispatchEvent(new Event(kind));
    const event = new Event(kind);
    Object.defineProperty(event, "target", { value: port });
    serial.dispatchEvent(event);
    serial[`on${kind}`]?.(event);
  }

  function add({ number, isGranted, isPlugged }) {
    const device = { number, isGranted, isPlugged };
    new SerialPort(device);
    devices.set(number, device);
  }

  start.forEach(add);
  window.boards = {
    deliver(number, base64) {
      devices.get(number).deliver(Uint8Array.from(atob(base64), (letter) => letter.charCodeAt(0)));
    },
    choose(number) {
      chosen = number;
    },
    lock(number, isLocked) {
      devices.get(number).isLocked = isLocked;
    },
    unplug(number, staysGranted) {
      const device = devices.get(number);
      device.isPlugged = false;
      device.lose();
      if (device.isGranted) {
        happens("disconnect", device.port);
      }
      device.isGranted &&= staysGranted;
    },
    plug(number) {
      if (!devices.has(number)) {
        add({ number, isGranted: false, isPlugged: false });
      }
      const device = devices.get(number);
      device.isPlugged = true;
      if (device.isGranted) {
        happens("connect", device.port);
      }
    },
  };
  Object.defineProperty(Navigator.prototype, "serial", { configurable: true, get: () => serial });
  tell({ what: "began" });
}
