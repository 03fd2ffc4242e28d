// Boards behind a navigator.serial of the page itself, for measurements: evaluated before the page's scripts. `boards.add(number)`
// plugs one in, `boards.play(number, from, to, clock)` moves a piece as a hand does: it is lifted, and put down.
// `boards.chatter(number, name)` has a square chatter from then on, at the pace of a board's line: 960 bytes a second.
{
  const START = 'rnbqkbnrpppppppp................................PPPPPPPPRNBQKBNR';
  const LETTERS = '.PRNBKQprnbkq';
  const square = (name) => 'abcdefgh'.indexOf(name[0]) + 8 * (8 - Number(name[1]));
  const lost = () => new DOMException('The device has been lost.', 'NetworkError');

  class Port extends EventTarget {
    constructor(number) {
      super();
      this.number = number;
      this.codes = [...START].map((letter) => LETTERS.indexOf(letter));
      this.readable = null;
      this.writable = null;
      this.asked = null; // when the board was asked first
      this.sends = true;
      this.isRotated = false;
    }

    getInfo() {
      return { usbVendorId: 0x0403, usbProductId: 0x6001 };
    }

    async open() {
      this.readable = new ReadableStream({ start: (controller) => { this.controller = controller; }, cancel: () => { this.controller = null; } });
      this.writable = new WritableStream({ write: (bytes) => this.hears(bytes) });
    }

    async close() {
      if (this.readable && this.readable.locked) throw new TypeError('locked');
      this.readable = this.writable = this.controller = null;
    }

    hears(bytes) {
      if (this.asked === null) this.asked = performance.now();
      for (const byte of bytes) {
        if (byte === 0x45) this.send([0x91, 0, 8, ...[...String(10000 + this.number)].map((digit) => digit.charCodeAt(0))]);
        if (byte === 0x42) this.send([0x86, 0, 67, ...(this.isRotated ? [...this.codes].reverse() : this.codes)]);
      }
    }

    send(bytes) {
      if (this.controller && this.sends) this.controller.enqueue(Uint8Array.from(bytes));
    }

    put(name, code) {
      this.codes[square(name)] = code;
      this.send([0x8e, 0, 5, this.isRotated ? 63 - square(name) : square(name), code]);
    }

    lose() {
      if (this.controller) this.controller.error(lost());
      this.readable = this.writable = this.controller = null;
    }
  }

  const ports = new Map();
  const granted = new Set();
  let next = null;
  class Serial extends EventTarget {
    async getPorts() {
      return [...granted].map((number) => ports.get(number));
    }

    async requestPort() {
      if (next === null) throw new DOMException('No port selected by the user.', 'NotFoundError');
      granted.add(next);
      return ports.get(next);
    }
  }
  const serial = new Serial();
  Object.defineProperty(navigator, 'serial', { value: serial });

  const tell = (kind, port) => {
    const event = new Event(kind);
    Object.defineProperty(event, 'target', { value: port });
    serial.dispatchEvent(event);
  };
  window.boards = {
    ports,
    add(number, isGranted = false, squares = START) {
      ports.set(number, new Port(number));
      ports.get(number).codes = [...squares].map((letter) => LETTERS.indexOf(letter));
      if (isGranted) granted.add(number);
      next = number;
    },
    chatter(number, name) {
      const port = ports.get(number);
      const code = port.codes[square(name)];
      setInterval(() => {
        for (let pair = 0; pair < 5; pair += 1) for (const shown of [0, code]) port.put(name, shown);
      }, 52);
    },
    squares: (number) => ports.get(number).codes.map((code) => LETTERS[code]).join(''),
    lift: (number, name) => ports.get(number).put(name, 0),
    set: (number, name, letter) => ports.get(number).put(name, LETTERS.indexOf(letter)),
    play(number, from, to) {
      const port = ports.get(number);
      const code = port.codes[square(from)];
      port.put(from, 0);
      if (port.codes[square(to)] !== 0) port.put(to, 0);
      port.put(to, code);
    },
    clock(number, white, black, whiteRuns = true) {
      const digits = (time) => time.split(':').map((part) => parseInt(part, 16));
      ports.get(number).send([0x8d, 0, 10, ...digits(white), ...digits(black), 1 | (whiteRuns ? 0 : 8)]);
    },
    unplug(number) {
      ports.get(number).lose();
      granted.delete(number);
      tell('disconnect', ports.get(number));
    },
    plug(number, isSame = true) {
      const before = ports.get(number);
      if (!isSame) {
        const port = new Port(number);
        port.codes = before.codes;
        ports.set(number, port);
      }
      granted.add(number);
      tell('connect', ports.get(number));
    },
  };
}
