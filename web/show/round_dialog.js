// The window in which somebody begins a new round on all boards.

import { element, say } from '../../live/show/page/diagram.js';
import { linked, message, plural } from '../../live/show/page/message.js';
import { at } from './messages.js';

/** @type {{ [name: string]: import('./messages.js').RoundName | 'round-pairs' }} */
const FIELDS = { Event: 'round-event', Site: 'round-site', Round: 'round-number', Date: 'round-date', pairs: 'round-pairs' };

/** @type {(seats: Recorded[], what: Words) => Words[]} what is said of these boards, if there are any: [message] */
function toldOf(seats, what) {
  const boards = plural('round.boards', seats.length, { boards: seats.map(({ id }) => id).join(', ') });
  return seats.length > 0 ? [linked('colon', [boards, what])] : [];
}

/** @type {(kind: 'td' | 'th', cells: Words[]) => HTMLTableRowElement} a row of a table with these cells */
function rowOf(kind, cells) {
  const row = element('tr');
  cells.forEach((cell) => row.append(element(kind, '', cell)));
  return row;
}

export class RoundDialog {
  /** @param {Hall} hall */
  constructor(hall) {
    this.hall = hall;
    this.root = at('round-dialog');
    at('round-pairs').addEventListener('input', () => this.showRead());
    at('round-cancel').addEventListener('click', () => this.root.close());
    at('round-form').addEventListener('submit', (event) => {
      event.preventDefault();
      this.begin();
    });
  }

  open() {
    if (this.root.open || this.hall.recorded().length === 0) return;
    for (const [name, value] of Object.entries({ ...this.hall.rounds.likely, pairs: '' })) at(FIELDS[name]).value = value;
    say(at('round-answer'), '');
    this.showRead();
    this.showEnds();
    this.root.showModal();
    at('round-number').focus();
    at('round-number').select();
  }

  /** How the pairs are read that are typed by now: so they are taken. */
  showRead() {
    const lines = at('round-pairs').value;
    at('round-read').replaceChildren();
    at('round-read').hidden = true;
    say(at('round-unread'), '');
    if (!lines.trim()) return;
    try {
      const { pairs, passed } = this.hall.rounds.pairsIn(lines);
      const rows = [...pairs].sort(([one], [other]) => one - other).map(([number, { White, Black }]) => rowOf('td', [String(number), White, Black]));
      at('round-read').append(rowOf('th', [message('label.board_column'), message('side.white'), message('side.black')]), ...rows);
      at('round-read').hidden = false;
      const others = this.hall.rounds.seats().filter(({ id }) => !pairs.has(id));
      const over = passed.length > 0 ? [message('paste.passed_over', { lines: passed.join(' | ') })] : [];
      say(at('round-unread'), linked('space', [...toldOf(others, message('ask.names_cleared')), ...over]));
    } catch (error) {
      say(at('round-unread'), message('paste.not_read', { why: error.message || error }));
    }
  }

  /** What becomes of the games that are on, and of the boards in other tabs. */
  showEnds() {
    const { end, goOn } = this.hall.rounds.inPlay;
    const unended = this.hall.recorded().filter((seat) => seat.unended);
    const texts = [
      ...toldOf(unended, message('ask.unended')),
      ...toldOf(end, message('ask.ends_here')),
      ...toldOf(goOn, message('ask.goes_on')),
      ...(this.hall.elsewhere.size > 0 ? [message('ask.round_elsewhere')] : []),
    ];
    say(at('round-ends'), linked('space', texts));
    at('round-ends').hidden = texts.length === 0;
    say(at('round-begin'), end.length > 0 ? message('label.end_and_begin_round') : message('label.begin_round'));
  }

  async begin() {
    const values = Object.entries(FIELDS).map(([name, id]) => [name, at(id).value]);
    const typed = /** @type {Round & { pairs: string }} */ (Object.fromEntries(values));
    at('round-begin').disabled = true;
    try {
      const failed = await this.hall.rounds.beginRound(typed);
      const [told = ''] = toldOf(failed, message('failed.round'));
      this.hall.notice('round', told, [[message('label.new_round'), () => this.open()]], true);
      this.root.close();
      window.location.hash = '';
    } catch (error) {
      say(at('round-answer'), `${error.message || error}`);
    } finally {
      at('round-begin').disabled = false;
    }
  }
}
