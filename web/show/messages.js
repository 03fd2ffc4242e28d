// The page's elements, in which texts are set as text, never as markup; its messages, with the time of day, the newest first; notices that
// stay until somebody has acted on them; and what a screen reader reads out.

import { Log } from '../hall/saving.js';
import { element } from '../../live/show/page/diagram.js';
import { isSame, linked, message } from '../../live/show/page/message.js';

/** Elements that have more than each element has.
 * @typedef {'open' | 'typed' | 'name' | 'rotated' | 'black-first' | 'recover'} InputName
 * @typedef {'round-event' | 'round-site' | 'round-number' | 'round-date'} RoundName
 * @typedef {'add' | 'new-round' | 'folder' | 'save-round' | 'sample' | 'round-begin'} ButtonName
 * @typedef {{ 'details': HTMLDetailsElement, 'round-dialog': HTMLDialogElement, 'round-pairs': HTMLTextAreaElement }} OtherElements
 * @typedef {OtherElements & { [name in InputName | RoundName]: HTMLInputElement } & { [name in ButtonName]: HTMLButtonElement }} Elements */

/** The element with this identifier, which the page has.
 * @template {string} Name
 * @param {Name} name */
export const at = (name) => {
  const found = /** @type {unknown} */ (document.getElementById(name));
  return /** @type {Name extends keyof Elements ? Elements[Name] : HTMLElement} */ (found);
};

/** @type {(selector: string) => NodeListOf<HTMLElement>} all elements that a selector finds */
export const all = (selector) => document.querySelectorAll(selector);

/** @type {(text: Words, pressed: () => unknown, name?: string) => HTMLButtonElement} a button with a text */
export function button(text, pressed, name = '') {
  const made = element('button', name, text);
  made.type = 'button';
  made.addEventListener('click', pressed);
  return made;
}

/** @type {(text: string) => Uint8Array} the bytes of a text in base64 */
export const bytesIn = (text) => Uint8Array.from(atob(text.trim()), (letter) => letter.charCodeAt(0));

/** @type {(messages: Messages, what: Words) => (error: Error) => void} the message about a step that failed */
export function failed(messages, what) {
  return (error) => {
    console.error(error);
    const text = linked('colon', [what, error.message || String(error)]);
    messages.say(text);
    messages.notice('failed', message('join.capital', { text }));
  };
}

const MOST_READ = 8; // lines that a screen reader may read

/** @type {(text: Words, isAlarm?: boolean) => void} reads it out; an alarm at once, and anything else after what is being read */
export function announce(text, isAlarm = false) {
  const place = at(isAlarm ? 'called' : 'said');
  place.append(element('p', '', text));
  while (place.children.length > MOST_READ) place.firstElementChild?.remove();
}

const MOST_LINES = 300;

/** @type {(elements: HTMLElement[]) => void} the large board is so much smaller as these elements above it are high */
function leaveRoom(elements) {
  const { style } = document.documentElement;
  const observer = new ResizeObserver(() => {
    const height = elements.reduce((sum, one) => sum + one.offsetHeight, 0);
    style.setProperty('--above', `${height}px`);
  });
  elements.forEach((one) => observer.observe(one));
}

export class Messages {
  constructor() {
    this.notices = /** @type {Map<string, { text: Words, root: HTMLElement }>} */ (new Map());
    this.log = new Log();
    leaveRoom([...all('header'), at('notices')]);
  }

  /** @type {(text: Words, number?: number | null) => void} a line, about a board if it has a number */
  say(text, number = null) {
    this.log.add(text, number);
    const time = new Date().toTimeString().slice(0, 8);
    const line = element('li', '', `${time}  ${number === null ? '' : `${number}: `}${text}`);
    const list = at('messages');
    list.prepend(line);
    at('log').hidden = false;
    while (list.children.length > MOST_LINES) list.lastElementChild?.remove();
  }

  /** A notice with this name and buttons: [text, action]; without a text it is removed.
   * @type {(name: string, text: Words, buttons?: Button[], isAlarm?: boolean) => void} */
  notice(name, text, buttons = [], isAlarm = false) {
    const before = this.notices.get(name);
    if (before && isSame(before.text, text)) return;
    if (before) before.root.remove();
    this.notices.delete(name);
    if (!text) return;
    this.log.add(text, null);
    const root = element('li', isAlarm ? 'alarm' : '');
    root.append(element('p', '', text));
    for (const [label, pressed] of buttons) root.append(button(label, pressed, 'main'));
    root.append(button(message('label.close'), () => this.notice(name, '')));
    at('notices').append(root);
    announce(text, isAlarm);
    this.notices.set(name, { text, root });
  }
}
