// The page that records: it opens what is kept, seats its boards, connects buttons with what they do, and shows captures that are dropped.

import { lacking } from '../child/program.js';
import { missingDevice, systemOf, whichDevice } from '../hall/devices.js';
import { Hall } from '../hall/hall.js';
import { LARGEST } from '../kept/capture.js';
import { drawPieces, say } from '../../live/show/page/diagram.js';
import { Complaint, linked, message } from '../../live/show/page/message.js';
import { Cards } from './cards.js';
import { Messages, announce, at, bytesIn, failed } from './messages.js';
import { Panel } from './panel.js';
import { RoundDialog } from './round_dialog.js';

/** Keeps the screen awake while a board records: a computer that sleeps records nothing. */
class Awake {
  constructor() {
    this.isWanted = false;
    this.lock = /** @type {WakeLockSentinel | null} */ (null);
    document.addEventListener('visibilitychange', () => this.hold());
  }

  /** @type {(isWanted: boolean) => void} */
  wanted(isWanted) {
    if (isWanted === this.isWanted) return;
    this.isWanted = isWanted;
    this.hold();
  }

  /** The browser takes the lock away when nobody sees the page. */
  async hold() {
    if (!navigator.wakeLock) return;
    try {
      if (!this.isWanted && this.lock) {
        const { lock } = this;
        this.lock = null;
        await lock.release();
      } else if (this.isWanted && !document.hidden && (!this.lock || this.lock.released)) {
        this.lock = await navigator.wakeLock.request('screen');
      }
    } catch (error) {
      this.lock = null; // the battery is low, say
    }
  }
}

class Dropping {
  /** @param {Hall} hall @param {Messages} messages */
  constructor(hall, messages) {
    this.hall = hall;
    this.messages = messages;
    at('open').addEventListener('change', () => {
      this.take([...(at('open').files || [])]);
      at('open').value = '';
    });
    const root = document.documentElement;
    document.addEventListener('dragover', (event) => {
      event.preventDefault();
      root.classList.add('dropping');
    });
    document.addEventListener('dragleave', (event) => {
      if (!event.relatedTarget) root.classList.remove('dropping');
    });
    document.addEventListener('drop', (event) => {
      event.preventDefault();
      root.classList.remove('dropping');
      this.take([...(event.dataTransfer?.files || [])]);
    });
  }

  /** @type {(files: File[]) => Promise<void>} */
  async take(files) {
    for (const file of files) {
      try {
        if (file.size > LARGEST) throw new Complaint(message('capture.too_long'));
        await this.show(file.name, new Uint8Array(await file.arrayBuffer()));
      } catch (error) {
        this.messages.notice('failed', message('capture.not_shown', { file: file.name, why: error.message || error }), [], true);
      }
    }
  }

  /** @type {(name: string, bytes: Uint8Array) => Promise<void>} */
  async show(name, bytes) {
    const seat = await this.hall.showCapture(name, bytes);
    window.location.hash = `#${seat.id}`;
  }
}

/** @type {(name: string) => string} */
const textIn = (name) => at(name).textContent || '';

async function begin() {
  drawPieces();
  const messages = new Messages();
  const cards = new Cards();
  const awake = new Awake();
  /** @type {Hall} */
  const hall = new Hall(textIn('worker'), textIn('module').trim(), {
    changed: (isNews, number) => {
      cards.show(hall, isNews, number);
      awake.wanted(hall.isRecording);
      at('add').disabled = !navigator.serial || !hall.database || !hall.isReady;
    },
    says: (text, number) => messages.say(text, number),
    notice: (...given) => messages.notice(...given),
    newRound: () => dialog.open(),
    names: (number) => {
      window.location.hash = `#${number}`;
      at('details').open = true;
    },
  });
  /** @type {RoundDialog} */
  const dialog = new RoundDialog(hall);
  cards.hall = hall;
  cards.panel = new Panel(hall, messages);
  const dropping = new Dropping(hall, messages);

  at('add').addEventListener('click', () => hall.devices.add().catch(failed(messages, message('failed.add'))));
  at('folder').addEventListener('click', () => hall.folders.choose().catch(failed(messages, message('failed.folder'))));
  at('save-round').addEventListener('click', () => hall.saveRound().catch(failed(messages, message('failed.save_games'))));
  at('new-round').addEventListener('click', () => dialog.open());
  at('sample').addEventListener('click', () => dropping.show('short-game.dgt', bytesIn(textIn('short-game'))));

  say(at('which'), linked('space', [whichDevice(systemOf(navigator)), missingDevice(systemOf(navigator))]));

  if (!navigator.serial) messages.notice('serial', message('browser.no_serial'), [], true);
  const lacks = lacking();
  if (lacks) {
    messages.notice('module', message('browser.lacks', { what: lacks }), [], true);
    hall.isReady = true;
    cards.show(hall);
    return;
  }
  hall.program.ready().catch((error) => messages.notice('module', message('failed.recorder', { why: error.message }), [], true));
  await hall.begin();
  hall.changed();
  for (const name of /** @type {const} */ (['folder', 'save-round', 'sample', 'open'])) at(name).disabled = false;
  window.addEventListener('beforeunload', (event) => {
    if (hall.isUnsaved) event.preventDefault();
  });
}

begin().catch((error) => {
  console.error(error);
  const text = message('failed.page', { why: error.message || error });
  say(at('line'), text);
  announce(text, true);
});
