/**
 * Folders to save to: what a user would choose in the browser's window, which a browser without a screen can't show.
 *
 * The handle is a real one, of the folder that the test has dropped on the page last, so that the page can keep it in its database. What
 * is written goes to the test by the binding `tellBoards`: {what: "file", at, name, bytes in base64}, {what: "move", at, name, to},
 * {what: "remove", at, name}; `at` is the name of the folder. `folder.permission` is what the page is told: "granted", "prompt" or "denied"; `folder.answers` is what it
 * is given when it asks. `folder.refuses` has the window that asks for a folder refuse it, as Cancel and Don't Allow do.
 * `folder.fails` is the name of the error with which a file can't be written, if it can't: with `folder.failing` only one whose name
 * ends so. `folder.lost` are the names of folders that have vanished. `folder.edit(name, bytes)` is somebody who writes a file in the
 * first one; `folder.written` has for each file that was written its name, how
 * many bytes of the old one it kept, and how many were written.
 */
function provideFolder(start) {
  const tell = (message) => window.tellBoards(JSON.stringify(message));
  const bytesIn = (base64) => Uint8Array.from(atob(base64), (letter) => letter.charCodeAt(0));
  const first = new Map(start.files.map(([name, base64]) => [name, bytesIn(base64)])); // what is there
  const folders = new Map([[start.name, first]]); // what is in each, by its name
  const changed = new Map(); // how often each file was written, by its name
  let handle = null;
  window.folder = { permission: start.permission, answers: "granted", refuses: false, fails: "", failing: "", lost: [], written: [], edit: (...given) => put(start.name, ...given), get has() { return handle?.name ?? ""; } };

  addEventListener("dragover", (event) => event.preventDefault(), { capture: true });
  addEventListener(
    "drop",
    async (event) => {
      event.preventDefault();
      event.stopImmediatePropagation();
      handle = await event.dataTransfer.items[0].getAsFileSystemHandle();
    },
    { capture: true },
  );
  window.showDirectoryPicker = async () => {
    if (!handle || window.folder.refuses) {
      throw new DOMException("The user aborted a request.", "AbortError");
    }
    window.folder.permission = "granted"; // the window asks for that too
    return handle;
  };

  const base64Of = (bytes) => {
    const letters = [];
    for (let at = 0; at < bytes.length; at += 4096) {
      letters.push(String.fromCharCode(...bytes.subarray(at, at + 4096)));
    }
    return btoa(letters.join(""));
  };

  function filesOf(at) {
    if (!folders.has(at)) folders.set(at, new Map());
    return folders.get(at);
  }

  function check(at, name) {
    if (window.folder.lost.includes(at)) {
      throw new DOMException("A requested file or directory could not be found at the time an operation was processed.", "NotFoundError");
    }
    if (window.folder.permission !== "granted") {
      throw new DOMException("The request is not allowed by the user agent or the platform in the current context.", "NotAllowedError");
    }
    if (window.folder.fails && name.endsWith(window.folder.failing)) {
      throw new DOMException("The file can't be written.", window.folder.fails);
    }
  }

  function put(at, name, bytes) {
    filesOf(at).set(name, bytes);
    changed.set(name, (changed.get(name) ?? 0) + 1);
    tell({ what: "file", at, name, bytes: base64Of(bytes) });
  }

  class Writable {
    #at;
    #name;
    #kept;
    #content;
    #position = 0;

    constructor(at, name, keeps) {
      this.#at = at;
      this.#name = name;
      this.#content = keeps ? filesOf(at).get(name) : new Uint8Array();
      this.#kept = this.#content.length;
    }

    async write(given) {
      check(this.#at, this.#name);
      const { position, data } = given?.type === "write" ? given : { position: this.#position, data: given };
      const bytes = new Uint8Array(await new Blob([data]).arrayBuffer());
      const longer = new Uint8Array(Math.max(this.#content.length, position + bytes.length));
      longer.set(this.#content);
      longer.set(bytes, position);
      this.#content = longer;
      this.#position = position + bytes.length;
      window.folder.written.push([this.#name, this.#kept, bytes.length]);
    }

    async close() {
      check(this.#at, this.#name);
      put(this.#at, this.#name, this.#content);
    }

    async abort() {
      this.#content = new Uint8Array();
    }
  }

  class FileHandle {
    kind = "file";

    #at;

    constructor(at, name) {
      this.#at = at;
      this.name = name;
    }

    async createWritable({ keepExistingData = false } = {}) {
      check(this.#at, this.name);
      return new Writable(this.#at, this.name, keepExistingData);
    }

    async getFile() {
      return new File([filesOf(this.#at).get(this.name)], this.name, { lastModified: changed.get(this.name) ?? 0 });
    }

    async move(to) {
      check(this.#at, to);
      const files = filesOf(this.#at);
      files.set(to, files.get(this.name));
      files.delete(this.name);
      tell({ what: "move", at: this.#at, name: this.name, to });
      this.name = to;
    }
  }

  const permission = async () => window.folder.permission;
  const request = async () => {
    if (!navigator.userActivation.isActive) {
      throw new DOMException("User activation is required to request permissions.", "SecurityError");
    }
    window.folder.permission = window.folder.answers;
    return window.folder.answers;
  };
  Object.assign(FileSystemHandle.prototype, { queryPermission: permission, requestPermission: request });
  Object.assign(FileSystemDirectoryHandle.prototype, {
    queryPermission: permission,
    requestPermission: request,
    async getFileHandle(name, options = {}) {
      if (!name || name === "." || name === ".." || /[\/\\]/.test(name)) {
        throw new TypeError("Name is not allowed.");
      }
      if (!filesOf(this.name).has(name)) {
        if (!options.create) {
          throw new DOMException("A requested file or directory could not be found at the time an operation was processed.", "NotFoundError");
        }
        check(this.name, name);
        put(this.name, name, new Uint8Array());
      }
      return new FileHandle(this.name, name);
    },
    async removeEntry(name) {
      check(this.name, name);
      if (!filesOf(this.name).delete(name)) {
        throw new DOMException("A requested file or directory could not be found at the time an operation was processed.", "NotFoundError");
      }
      tell({ what: "remove", at: this.name, name });
    },
  });
}
