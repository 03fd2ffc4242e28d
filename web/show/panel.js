// What somebody does with the large board: types, names, options, files.

import { TURNED_ROUND } from '../board/state.js';
import { pgnDate } from '../game/names.js';
import { UNKNOWN, written } from '../game/options.js';
import { YES } from '../game/typed.js';
import { OF_ALL } from '../hall/rounds.js';
import { allOf, save } from '../hall/saving.js';
import { say } from '../../live/show/page/diagram.js';
import { linked, message, plural } from '../../live/show/page/message.js';
import { all, at, failed } from './messages.js';

/** @type {[name: 'rotated' | 'black-first' | 'recover', option: 'rotated' | 'first' | 'recover', on: unknown, off: unknown][]} */
const CHECKS = [['rotated', 'rotated', true, false], ['black-first', 'first', 'black', null], ['recover', 'recover', true, null]];

const fields = () => /** @type {NodeListOf<HTMLInputElement>} */ (all('[data-tag]'));

/** @type {(why: Words) => Words} */
const refused = (why) => message('refused.why', { why });

export class Panel {
  /** @param {Hall} hall @param {Messages} messages */
  constructor(hall, messages) {
    this.hall = hall;
    this.messages = messages;
    this.seat = /** @type {Seat | Shown | null} */ (null);
    this.removes = false; // whether the next press on Remove does it
    this.ends = false; // whether the next press on Next game ends a game that goes on
    this.drafts = /** @type {WeakMap<Seat | Shown, string>} */ (new WeakMap()); // lines that were typed and not entered, by the seats
    at('say').addEventListener('submit', (event) => {
      event.preventDefault();
      this.type(at('typed').value);
    });
    for (const pressed of all('[data-says]')) {
      pressed.addEventListener('click', () => this.type(String(pressed.dataset.says)));
    }
    for (const pressed of all('[data-before]')) {
      pressed.addEventListener('click', () => this.giveResult(String(pressed.dataset.before)));
    }
    at('ok').addEventListener('click', () => this.type('ok'));
    at('yes').addEventListener('click', () => this.type(YES));
    at('turned').addEventListener('click', () => this.turnRound());
    for (const input of fields()) {
      input.addEventListener('change', () => this.edit(input));
    }
    at('name').addEventListener('change', () => this.rename());
    at('for-all').addEventListener('click', () => this.shareWithAll());
    for (const [id, option, on, off] of CHECKS) {
      at(id).addEventListener('change', () => this.change({ [option]: at(id).checked ? on : off }, at(id)));
    }
    at('save-game').addEventListener('click', () => this.does(this.saveGame(), message('failed.save_game')));
    at('save-capture').addEventListener('click', () => this.saveCapture());
    at('save-before').addEventListener('click', () => this.does(this.saveBefore(), message('failed.save_before')));
    at('save-all').addEventListener('click', () => this.does(this.saveAll(), message('failed.save_all')));
    at('next-game').addEventListener('click', () => this.nextGame());
    at('connect').addEventListener('click', () => this.chooseDevice());
    at('choose').addEventListener('click', () => this.chooseDevice());
    at('stop').addEventListener('click', () => this.does(this.hall.stopOrGoOn(this.recorded), message('failed.that')));
    at('remove').addEventListener('click', () => this.remove());
  }

  /** @type {(promise: Promise<unknown>, what: Words) => void} */
  does(promise, what) {
    promise.catch(failed(this.messages, what));
  }

  /** @type {(seat: Seat | Shown) => void} */
  open(seat) {
    this.keepDraft();
    this.seat = seat;
    this.removes = false;
    this.ends = false;
    this.answer('', true);
    at('typed').value = this.drafts.get(seat) || '';
    this.show(seat, true);
  }

  close() {
    this.keepDraft();
    this.seat = null;
  }

  /** The board that is open, for what nobody does without one. */
  get opened() {
    return /** @type {Seat | Shown} */ (this.seat);
  }

  /** The same, for what is hidden while a capture is open. */
  get recorded() {
    return /** @type {Seat} */ (this.seat);
  }

  keepDraft() {
    if (this.seat) this.drafts.set(this.seat, at('typed').value);
  }

  /** @type {(input: HTMLInputElement) => void} a line stays as it is typed; a name is again what it was */
  leave(input) {
    if (input !== at('typed')) {
      const { name, options } = this.opened;
      input.value = input.id === 'name' ? name : this.valueOf(String(input.dataset.tag), options);
    }
    input.blur();
  }

  /** @type {(text: Words, isDone: boolean) => void} */
  answer(text, isDone) {
    say(at('answer'), text);
    at('answer').classList.toggle('refused', !isDone);
    at('for-all').hidden = true;
  }

  /** @type {(text: string) => Promise<void>} */
  async type(text) {
    const seat = this.recorded;
    if (!text.trim()) return;
    const { done, said } = await seat.recording.typing.take(text);
    if (done && this.drafts.get(seat) === text) this.drafts.delete(seat);
    if (seat !== this.seat) return;
    this.answer(said, done);
    if (done && at('typed').value === text) at('typed').value = ''; // else somebody types the next line already
  }

  /** @type {(outcome: string) => Promise<void>} gives it to the game before */
  async giveResult(outcome) {
    const seat = this.recorded;
    const game = seat.unended;
    if (!game) return;
    try {
      await seat.giveResult(game, outcome);
      if (seat === this.seat) this.answer(`${game.name}: ${outcome}`, true);
    } catch (error) {
      if (seat === this.seat) this.answer(refused(error.message), false);
    }
    this.hall.changed();
  }

  /** @type {(seat: Seat | Shown | undefined, isNew?: boolean) => void} fields in which somebody types stay as they are */
  show(seat, isNew = false) {
    if (!seat) return;
    const recorded = seat.isCapture ? null : seat;
    const session = recorded && recorded.session;
    const isReady = seat.isCapture || session !== null;
    at('panel').classList.toggle('unready', !isReady);
    say(at('remove'), this.removeWords(seat));
    at('lacks').hidden = !session || session.cable.isOpen || session.isOver || session.cable.isStopped;
    if (!isReady) return;
    const { options } = seat;
    for (const input of fields()) {
      if (isNew || document.activeElement !== input) input.value = this.valueOf(String(input.dataset.tag), options);
    }
    if (isNew || document.activeElement !== at('name')) at('name').value = seat.name;
    for (const [id, option, on] of CHECKS) at(id).checked = options[option] === on;
    at('rotated').disabled = session !== null && session.playing.hasMoves && !options.rotated;
    for (const id of ['say', 'recording', 'save-all']) at(id).hidden = seat.isCapture;
    at('save-before').hidden = !session || !session.record.game.hasBefore;
    say(at('next-game'), this.nextWords(session));
    say(at('stop'), session && session.cable.isStopped ? message('label.record_again') : message('label.stop'));
    const unended = recorded && recorded.unended;
    at('before-game').hidden = !unended;
    if (unended) say(at('before-which'), message('ask.result_before', { name: unended.name }));
    this.showAsked(recorded);
  }

  /** @type {(name: string, options: Options) => string} */
  valueOf(name, options) {
    return name === 'Date' ? options.date || options.began || UNKNOWN : written(options, name);
  }

  /** @type {(session: Session | null) => Words} */
  nextWords(session) {
    if (this.ends) return message('label.ends_here');
    return session && session.next.awaited ? message('label.begin_with_move') : message('label.next_game');
  }

  /** @type {(seat: Seat | Shown) => Words} */
  removeWords(seat) {
    if (seat.isCapture) return message('label.close_capture');
    return this.removes ? message('label.removes') : message('label.remove');
  }

  /** @type {(seat: Seat | null) => void} what somebody must do, with the button for it */
  showAsked(seat) {
    const { looks, otherwise, hint, fit } = seat ? seat.asks : { looks: '', otherwise: '', hint: '', fit: '' };
    const isTurned = hint === TURNED_ROUND;
    at('asks').hidden = !looks && !isTurned && !fit;
    at('turned').hidden = !isTurned;
    at('ok').hidden = !looks;
    at('yes').hidden = !fit;
    const capital = otherwise && message('join.capital', { text: otherwise });
    const asked = fit && message('join.capital', { text: fit });
    say(at('ask'), linked('stop', [looks, capital, isTurned ? message('ask.turned_round') : '', asked].filter((part) => part)));
  }

  chooseDevice() {
    this.does(this.hall.devices.choose(this.recorded), message('failed.device'));
  }

  turnRound() {
    const seat = this.opened;
    this.does(seat.edit({ options: { rotated: !seat.options.rotated } }), message('failed.turn'));
  }

  /** @type {(options: Partial<Options>, input: HTMLInputElement) => Promise<void>} */
  async change(options, input) {
    try {
      await this.opened.edit({ options });
      this.answer('', true);
    } catch (error) {
      this.answer(refused(error.message), false);
      if (input.type === 'checkbox') input.checked = !input.checked;
    }
  }

  /** @type {(input: HTMLInputElement) => Promise<void>} a name, a date or a rating was typed */
  async edit(input) {
    const tag = String(input.dataset.tag);
    const typed = input.value.trim();
    try {
      if (tag === 'Date') await this.opened.edit({ options: { date: typed ? pgnDate(typed) : null } });
      else await this.hall.edit(this.opened, tag, typed);
      input.value = this.valueOf(tag, this.opened.options);
      this.answer(typed && input.value !== typed ? message('options.written_as', { typed, value: input.value }) : '', true);
      if (OF_ALL.includes(tag) && typed) this.offerForAll(tag);
    } catch (error) {
      this.answer(refused(error.message.includes(typed) ? error.message : linked('space', [typed, error.message])), false);
    }
  }

  /** @type {(tag: string) => void} other boards have another event, say: do they get this one too? */
  offerForAll(tag) {
    const seat = this.opened;
    const numbers = seat.isCapture ? [] : this.hall.rounds.differing(seat, tag).map(({ id }) => id);
    if (numbers.length === 0) return;
    this.answer(plural('ask.another_value', numbers.length, { boards: numbers.join(', '), tag: tag.toLowerCase() }), true);
    at('for-all').hidden = false;
    at('for-all').dataset.tag = tag;
    say(at('for-all'), message('label.for_all', { tag, value: written(seat.options, tag) }));
  }

  shareWithAll() {
    this.does(this.hall.rounds.shareWithAll(this.recorded, String(at('for-all').dataset.tag)), message('failed.that'));
    this.answer('', true);
  }

  /** A game in play ends only if the button is pressed twice. */
  nextGame() {
    const seat = this.recorded;
    if (seat.isInPlay && !this.ends) {
      this.ends = true;
      this.show(seat);
      return;
    }
    this.ends = false;
    const { next } = seat.recording;
    this.does(next.want(next.awaited || {}, next.awaited !== null), message('failed.next_game')); // which waits for the move that the board shows
  }

  async saveGame() {
    const seat = this.opened;
    save(`${seat.name}.pgn`, await seat.text(), 'application/vnd.chess-pgn');
  }

  saveCapture() {
    const seat = this.opened;
    save(`${seat.name}.dgt`, seat.bytes(), 'application/octet-stream');
  }

  /** What the board had sent before moves were taken off. */
  async saveBefore() {
    const kept = await this.recorded.before();
    kept.forEach(({ name, bytes, times }, number) => {
      save(`${name}.before-${number + 1}.dgt`, bytes, 'application/octet-stream');
      if (times) save(`${name}.before-${number + 1}.times`, times, 'text/plain');
    });
  }

  /** All that is kept of this board. */
  async saveAll() {
    const seat = this.recorded;
    save(`${seat.name}.zip`, await allOf(this.hall.database, seat, this.messages.log), 'application/zip');
  }

  async rename() {
    const seat = this.opened;
    try {
      await this.hall.rename(seat, at('name').value);
      at('name').value = seat.name;
    } catch (error) {
      this.answer(refused(error.message), false);
    }
  }

  remove() {
    if (!this.seat) return;
    if (!this.removes && !this.seat.isCapture) {
      this.removes = true;
      this.show(this.seat);
      return;
    }
    this.does(this.hall.remove(this.seat), message('failed.remove'));
    window.location.hash = '';
  }
}
