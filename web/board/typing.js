// What somebody types for a board that is recorded, or whose game is over. The program decides what it means; here its
// answers come into the capture.

import { BACK } from '../child/attended.js';
import { shortOf } from '../child/report.js';
import { shortOfLook } from '../game/alarms.js';
import { NO_PLIES, gameOf, lastDumpIn } from '../game/course.js';
import { BOTH, askedUnplayed, resultOf, whyPlayed, wordsOfForfeit } from '../game/forfeits.js';
import { between } from '../game/hidden.js';
import { ofTyping, optionsOf } from '../game/options.js';
import {
  ABSENT, AS_IT_IS, Asked, CUT, HELP, REFUSED, Refused, THIS, UNDO, UNPLAYED, alike, askedOf, cannot, isStillShown, meaning,
  placeOf, playedSince, question, questionOfUndo, reached, readAnswer, readBack, readInstead, readWords, refusal, refuse, refuseBack, refuseInstead,
  refuseNothing, settled, takenOut, takenUp, whichGame, wordsOfBack, wordsOfInstead, wordsOfUndone,
} from '../game/typed.js';
import { DISK_FULL, MOST } from '../kept/capture.js';
import { joined } from '../line/protocol.js';
import { isSame, linked, message, plural } from '../../live/show/page/message.js';

/** @typedef {{ capture: Capture, size: number, end: number | null }} Seen what the program decides about */

const TRIES = 4; // calls for one line, if the board sends something while each of them runs; the last one lets it wait
const KEPT = message('back.kept_here');

/** @type {(capture: Pick<Capture, 'trouble' | 'why'>) => Message} nothing can be changed while it can't be kept */
function unkept({ trouble, why }) {
  if (trouble !== DISK_FULL) return message('keep.nothing_changes', { why });
  const [isFull, mend] = [message('disk.is_full'), message('disk.make_room')];
  return message('typed.nothing_can_be', { why: isFull, done: message('done.changed'), mend });
}

/** @type {(calls: Program, text: string) => Promise<string>} the result that a line is; empty if it is something else */
async function resultIn(calls, text) {
  const { kind, words } = readAnswer('add', await calls.add(ofTyping(optionsOf()), new Uint8Array(0), text));
  return kind === 'result' ? words[0] : '';
}

/** @type {(before: import('../game/alarms.js').Looks, left: import('../game/alarms.js').Looks) => Message[]} which alarms have ended */
function aboutLooks(before, left) {
  const gone = before.open.filter((look) => !left.open.includes(look)).map(shortOfLook);
  return gone.length > 0 ? [message('look.settled', { looks: linked('comma', gone) })] : [];
}

export class Typing {
  /** @param {Session} session */
  constructor(session) {
    this.session = session;
    this.last = /** @type {Promise<unknown>} */ (Promise.resolve());
    this.answered = /** @type {Promise<unknown>} */ (Promise.resolve()); // ends when all lines typed so far are answered
    this.asked = /** @type {Words} */ (''); // the last question, which the same line answers if it is typed again
    this.lastLine = /** @type {Obeyed | null} */ (null); // the line that was obeyed last
    this.put = /** @type {PutIn | null} */ (null); // what the present line has put in
    /** @type {PutIn['before']} */
    this.before = { end: null }; // what was known of the game then
  }

  /** Does this while all that comes waits: none of it is taken or shown meanwhile.
   * @template Done
   * @param {() => Done | Promise<Done>} work @returns {Promise<Done>} */
  exclusively(work) {
    const { session } = this;
    const { attending } = session;
    /** @returns {Promise<Done>} */
    const alone = async () => {
      attending.pause();
      try {
        await attending.read();
        await session.capture.write();
        return await work();
      } finally {
        attending.goOn();
      }
    };
    const done = this.last.then(alone);
    this.last = done.catch(() => {});
    return done;
  }

  /** @type {(text: string) => Promise<Reply>} after the lines before it; an error in it ends nothing */
  take(text) {
    const answer = this.answered.then(() => this.answer(text));
    this.answered = answer;
    return answer;
  }

  /** @type {(text: string) => Promise<Reply>} */
  async answer(text) {
    const { session } = this;
    try {
      const typed = readWords(text);
      if (typed.kind === 'nothing') return { done: true, said: '' };
      if (typed.kind === 'helped') return { done: true, said: HELP };
      if (typed.kind === 'quit') throw new Refused(message('press.stop'));
      if (typed.kind === 'acknowledged') {
        const seen = session.acknowledge();
        this.obeyed(text, null, message('undo.look'));
        return { done: true, said: seen };
      }
      if (session.capture.trouble) throw new Refused(unkept(session.capture));
      if (typed.kind === 'accepted') await session.attending.read();
      const line = typed.kind === 'accepted' ? session.presence.accepts() : text;
      const said = await this.does(typed.kind === 'accepted' ? /** @type {ChangeTyped} */ (readWords(line)) : typed, line);
      session.says(said);
      return { done: true, said: session.capture.trouble ? linked('stop', [said, message('keep.not_yet')]) : said };
    } catch (error) {
      return { done: false, said: refusal(text, error) };
    }
  }

  /** @type {(typed: ChangeTyped, text: string) => Promise<Words>} does what changes the game */
  async does(typed, text) {
    const { session } = this;
    this.put = null;
    if (typed.kind === 'undo') return this.undo();
    if (typed.kind === 'forfeit') {
      const notPlayed = await this.forfeit(typed.forfeit);
      this.obeyed(text, null, message('undo.forfeit'));
      return notPlayed;
    }
    const { forfeit } = session.record.game;
    const said = await this.changes(typed);
    const put = /** @type {PutIn | null} */ (this.put);
    const isResultOff = typed.kind === 'reopened';
    const why = isResultOff ? message('undo.result_off') : message('undo.other_way');
    this.obeyed(text, put && !forfeit && !isResultOff ? put : null, why);
    await session.forfeits('');
    return said;
  }

  /** @type {(line: string, put: PutIn | null, why: Words) => void} this line was obeyed last; what it has put in, or why that stays */
  obeyed(line, put, why) {
    const { capture, name, record } = this.session;
    this.lastLine = { line: line.trim().split(/\s+/u).join(' '), game: record.game.id, name, capture, put, why };
  }

  /** @type {(kept: number, made: number) => void} a new capture has taken the place of one with so many bytes */
  hasMade(kept, made) {
    this.put = { kept, made, from: made, to: made, before: this.before };
  }

  /** @type {(from: number, to: number) => void} the capture has got these bytes */
  hasAdded(from, to) {
    this.put = { kept: 0, made: 0, before: this.before, ...this.put, from, to };
  }

  /** @type {(typed: Exclude<ChangeTyped, { kind: 'forfeit' } | { kind: 'undo' }>) => Promise<Words>} */
  changes(typed) {
    switch (typed.kind) {
      case 'added':
        return this.add(typed.line);
      case 'instead':
        return this.putInstead(typed.line);
      case 'recover':
        return this.putBetween(typed.moves);
      default:
        return this.takeOff(typed.kind === 'reopened' ? '*' : typed.to);
    }
  }

  /** @type {(kind: string) => Promise<Words>} the result ends it as if it had been typed; if both players are absent, it has none */
  async forfeit(kind) {
    const { session } = this;
    await session.attending.read();
    const { plies, result } = session.course;
    const why = whyPlayed(kind, plies.length, result);
    if (why) throw new Refused(why);
    const outcome = resultOf(kind);
    await session.forfeits(kind); // before the result, with which it counts
    if (outcome !== '*' && outcome !== result) await this.add(outcome, true);
    return message('forfeit.not_played', { words: wordsOfForfeit(kind) });
  }

  /** Has the program decide about what the board has sent, and puts in what it answers. What the board sends while it decides is kept as
   * always; then it decides anew.
   * @type {<Answer, Done>(decide: (seen: Seen) => Promise<Answer>, put: (answer: Answer) => Promise<Done>) => Promise<Done>} */
  async decided(decide, put) {
    for (let count = 1; count < TRIES; count += 1) {
      await this.session.attending.read();
      const seen = this.seen();
      const answer = await decide(seen);
      const kept = await this.exclusively(async () => (this.isStill(seen) ? { done: await this.putIn(seen, answer, put) } : null));
      if (kept) return kept.done;
    }
    return this.exclusively(async () => {
      await this.session.attending.read();
      const seen = this.seen();
      return this.putIn(seen, await decide(seen), put);
    });
  }

  /** @type {() => Seen} what the program decides about: the capture, and where its game ends */
  seen() {
    const { capture, record } = this.session;
    return { capture, size: capture.size, end: record.game.end };
  }

  /** @type {(seen: Seen) => boolean} */
  isStill(seen) {
    const { capture, size, end } = this.seen();
    return seen.capture === capture && seen.size === size && seen.end === end;
  }

  /** Puts an answer in, once all lines about the capture have been heard. They may have ended the game.
   * @type {<Answer, Done>(seen: Seen, answer: Answer, put: (answer: Answer) => Promise<Done>) => Promise<Done>} */
  async putIn(seen, answer, put) {
    const { session } = this;
    await session.attending.read();
    if (session.guard.ended) throw new Refused(message('typed.interrupted'));
    if (session.next.beginning.isOn || !this.isStill(seen)) throw new Refused(message('typed.ended_meanwhile'));
    const { end, typedTo, overTo } = session.record.game;
    if (this.put === null) this.before = { end, typedTo, overTo };
    return put(answer);
  }

  /** @type {(text: string, isForfeit?: boolean) => Promise<Words>} moves or a result, as the program reads the line */
  async add(text, isForfeit = false) {
    return this.asking((asked) => this.addUnless(asked, text, isForfeit));
  }

  /** @type {(does: (asked: Words) => Promise<Words>) => Promise<Words>} does what has to be typed again after a question */
  async asking(does) {
    const { asked } = this;
    this.asked = '';
    try {
      return await does(asked);
    } catch (error) {
      if (error instanceof Asked) this.asked = error.message;
      throw error;
    }
  }

  /** @type {(asked: Words, text: string, isForfeit: boolean) => Promise<Words>} */
  async addUnless(asked, text, isForfeit) {
    const { session } = this;
    /** @type {(seen: Seen) => Promise<Outcome>} */
    const decide = ({ capture, size, end }) =>
      session.hall.calls.add(ofTyping(session.options), capture.view(end === null ? size : end), text);
    const then = await this.decided(decide, async (answer) => {
      const said = readAnswer('add', answer);
      const { plies, result } = session.course;
      const { put } = said;
      if (said.kind === 'reopen') return () => this.takeOff('*');
      if (said.kind === 'board' && result !== '*') return () => this.replace(asked, text, isForfeit);
      const played = plies.map(({ san }) => san);
      if (!put) throw refuse(said, text, placeOf(said, session.options.fen, played, text));
      const asks = said.kind === 'result' && !isForfeit ? this.whichGame(said.words[0]) : '';
      if (asks && !isSame(asks, asked)) throw new Asked(asks);
      if (session.isOver) {
        const end = Number(session.record.game.end);
        const bytes = session.capture.view();
        const typedTo = end + put.length;
        const overTo = Math.max(session.overTo + put.length, typedTo);
        const content = joined(bytes.subarray(0, end), put, bytes.subarray(end));
        /** @type {TimesOf} */
        const timesOf = (game, capture) => session.times.upTo(end, game, capture, put.length);
        await session.renew(content, false, { end: typedTo, typedTo, overTo }, timesOf);
        this.hasAdded(end, typedTo);
      } else {
        const from = session.capture.size;
        await session.add(put);
        this.hasAdded(from, from + put.length);
      }
      const gone = said.kind === 'moves' && result !== '*' ? [message('result.gone', { result })] : [];
      const added = message('typed.added_by_hand', { what: linked('semicolon', [meaning(said, text, plies.map(shortOf)), ...gone]) });
      return async () => added;
    });
    return then();
  }

  /** A result may be meant for the game before, unless this one is over. Throws Refused if this game has no move yet. Returns a question if
   * the game before has no result, or there is none and no move was made yet; else an empty text.
   * @type {(outcome: string) => Words} */
  whichGame(outcome) {
    const { around, course, isOver, name } = this.session;
    const before = around.gameBefore;
    const meant = isOver ? THIS : whichGame(course.plies.length, before && before.isUnended);
    if (!before || meant === THIS) return isOver || course.plies.length > 0 ? '' : askedUnplayed(outcome);
    const isThat = message('which.press_beside', { before: before.name, result: outcome });
    if (meant !== UNPLAYED) {
      const why = message('which.no_result', { name: before.name });
      return linked('stop', [why, message('which.type_again', { otherwise: isThat, name, result: outcome })]);
    }
    const hasNone = message('which.no_move_no_result', { name });
    throw new Refused(linked('stop', [hasNone, ...(before.isUnended ? [isThat] : []), message('which.absent', { absent: ABSENT })]));
  }

  /** Gives a result in the place of that of the kings, which is taken off first: the capture has them in the centre. Refused while they
   * still stand there. A game that is over stays over.
   * @type {(asked: Words, text: string, isForfeit: boolean) => Promise<Words>} */
  async replace(asked, text, isForfeit) {
    const { session } = this;
    const outcome = await resultIn(session.hall.calls, text);
    if (!outcome) throw refuse({ kind: 'board', words: [] }, text, '');
    if (session.isOver) return this.replaceAfter(outcome);
    const asks = this.whichGame(outcome);
    if (asks && !isSame(asks, asked)) throw new Asked(asks);
    session.says(await this.takeOff('*'));
    return this.addUnless(asks, text, isForfeit);
  }

  /** @type {(outcome: string) => Promise<Words>} to a game that is over: it ends with its last ply then, and what came after its end stays */
  async replaceAfter(outcome) {
    const { hall: { calls }, options } = this.session;
    const { plies, result } = this.session.course;
    /** @param {Seen} seen */
    const decide = async ({ capture, size, end }) => {
      const shown = readBack(await calls.back(ofTyping(options), capture.view(size), String(plies.length)));
      const cut = await this.session.endBehind(plies.length);
      const added = readAnswer('add', await calls.add(ofTyping(options), capture.view(cut || 0), outcome));
      const stood = readBack(await calls.back(ofTyping(options), capture.view(Number(end)), NO_PLIES)).put;
      return { shown, cut, added, stood };
    };
    return this.decided(decide, async ({ shown, cut, added, stood }) => {
      if (shown.kind === 'signed' && this.session.cable.isOpen) throw refuseBack(shown, outcome, plies);
      if (cut === null || !added.put || !stood) throw refuse({ kind: 'board', words: [] }, outcome, '');
      const { size } = this.session.capture;
      await this.session.endsAnew(cut, added.put, lastDumpIn(stood));
      this.hasMade(size, this.session.capture.size);
      const what = linked('semicolon', [meaning(added, outcome, plies.map(shortOf)), message('back.result_gone', { result })]);
      return linked('stop', [message('typed.added_by_hand', { what }), KEPT]);
    });
  }

  /** @type {(to: string) => Promise<Words>} takes plies off as far as `to` says, or with `*` a result */
  async takeOff(to) {
    const { session } = this;
    if (to === '*' && session.playing.forfeit === BOTH) {
      this.asked = '';
      return message('forfeit.gone'); // the forfeit goes with whatever else is typed
    }
    /** @type {(seen: Seen) => Promise<Outcome>} */
    const decide = ({ capture, size }) => session.hall.calls.back(ofTyping(session.options), capture.view(size), this.plyOf(to));
    return this.asking((asked) => this.decided(decide, (answer) => this.goBack(readBack(answer), to, asked)));
  }

  /** @type {(to: string) => string} moves that were made since a game is over aren't meant, but by `*` */
  plyOf(to) {
    const { isOver, course } = this.session;
    const { plies, result } = course;
    if (isOver && to === '*') return askedOf(result, plies.length);
    return isOver && to === '' && plies.length > 0 ? String(plies.length - 1) : to;
  }

  /** @type {(said: Back, to: string, asked: Words) => Promise<Words>} does what the program has answered to `back` */
  async goBack(said, to, asked) {
    const { session } = this;
    const { plies, result } = session.course;
    const { stays, put } = said;
    if (to === '*' && session.isOver) return this.goOn(said);
    const staysOver = session.isOver && isStillShown(said);
    if (session.isOver && stays > plies.length) throw refuseBack({ kind: 'nearest', rest: reached(plies) }, to, plies);
    const end = staysOver ? await session.endBehind(stays) : null;
    if (!put && end === null) throw refuseBack(said, to, plies);
    if (!session.isOver) refuseNothing(plies, stays, result, to);
    const asks = question(plies.slice(stays));
    if (asks && !isSame(asks, asked)) throw new Asked(asks);
    const { looks } = session.playing.alarms;
    const left = looks.without(settled(plies, stays));
    const done = wordsOfBack(plies, stays, result);
    const { size } = session.capture;
    if (end !== null) {
      await session.endWith(end, left.kept);
      this.hasAdded(size, size);
    } else if (put) {
      await session.renew(put, true, { end: null, typedTo: put.length, looks: left.kept, goneBack: session.goneBack + 1 });
      this.hasMade(size, put.length);
    }
    return linked('stop', [done, ...aboutLooks(looks, left), staysOver ? message('back.still_over') : KEPT]);
  }

  /** @type {(moves: string) => Promise<Words>} puts in two plies that no picture showed */
  async putBetween(moves) {
    const { session } = this;
    /** @param {Seen} seen */
    const decide = ({ capture, size }) => between(session.hall.calls, session.options, capture.view(size), moves);
    return this.decided(decide, async ({ content, now }) => {
      if (content.length > MOST) throw new Refused(message('back.capture_full'));
      const { size } = session.capture;
      const changes = { end: null, typedTo: content.length, looks: session.playing.alarms.looks.kept, goneBack: session.goneBack + 1 };
      await session.renew(content, true, changes);
      this.hasMade(size, content.length);
      const done = [message('hidden.put_in', { moves }), plural('hidden.plies', now.plies.length, { last: reached(now.plies) })];
      return linked('stop', [linked('semicolon', done), message('hidden.box'), KEPT]);
    });
  }

  /** @type {(line: string) => Promise<Words>} other moves come in place of the last ones; a game that was over goes on */
  async putInstead(line) {
    const { session } = this;
    /** @type {(seen: Seen) => Promise<Outcome>} */
    const decide = ({ capture, size }) => session.hall.calls.instead(ofTyping(session.options), capture.view(size), line);
    return this.asking((asked) => this.decided(decide, (answer) => this.replacePlies(readInstead(answer), line, asked)));
  }

  /** @type {(said: Instead, line: string, asked: Words) => Promise<Words>} does what the program has answered to `instead` */
  async replacePlies(said, line, asked) {
    const { session } = this;
    const { plies, result } = session.course;
    if (said.put === undefined) throw refuseInstead(said, line, session.options.fen, plies);
    const { stays, come, put } = said;
    const asks = question(plies.slice(stays + come));
    if (asks && !isSame(asks, asked)) throw new Asked(asks);
    const { looks } = session.playing.alarms;
    const left = looks.without(settled(plies, stays));
    const done = wordsOfInstead(plies, stays, line, result);
    const { size } = session.capture;
    const now = await gameOf(session.hall.calls, session.options, put);
    /** @type {TimesOf} */
    const timesOf = (game, capture, words) => session.times.next(game, capture, 0, now.result === '*' ? words : [BACK]); // else mate ends it
    await session.renew(put, true, { end: null, typedTo: put.length, looks: left.kept, goneBack: session.goneBack + 1 }, timesOf);
    this.hasMade(size, put.length);
    return linked('stop', [done, ...aboutLooks(looks, left), KEPT]);
  }

  /** @type {() => Promise<Words>} takes back the line that was obeyed last: the game is what it would be without it */
  async undo() {
    const { line, put } = this.toUndo();
    const { hall: { calls }, options } = this.session;
    /** @param {Seen} seen */
    const decide = async ({ capture, size }) => {
      const kept = await this.keptBefore(put);
      const content = takenOut(put, capture.view(size), kept.bytes);
      if (content.length > MOST) throw new Refused(message('back.capture_full'));
      const { end } = put.before;
      return { kept, content, now: await gameOf(calls, options, end === null ? content : content.subarray(0, end)) };
    };
    const said = await this.asking((asked) => this.decided(decide, ({ kept, content, now }) => {
      const asks = questionOfUndo(line, this.session.course.plies.slice(alike(this.session.course.plies, now.plies)));
      if (asks && !isSame(asks, asked)) throw new Asked(asks);
      return this.putBack(line, put, kept, content, now);
    }));
    this.obeyed(UNDO, null, message('undo.twice', { line }));
    return said;
  }

  /** @type {() => { line: string, put: PutIn }} the line that was obeyed last, and what it has put in. Throws Refused if it can't be undone */
  toUndo() {
    const { lastLine: last, session: { capture, name, record } } = this;
    if (last === null) throw new Refused(message('undo.nothing'));
    const { line, put, why } = last;
    if (line === UNDO) throw new Refused(why);
    if (put !== null && last.capture === capture) return { line, put };
    const isOther = put !== null && last.game !== record.game.id;
    throw new Refused(isOther ? message('undo.begun_since', { line, name, how: message('undo.beside', { name: last.name }) }) : cannot(line, why));
  }

  /** @type {(put: PutIn) => Promise<{ bytes: Uint8Array, times: string }>} the capture from before a line that has made another one; else nothing */
  async keptBefore({ kept }) {
    if (kept === 0) return { bytes: new Uint8Array(0), times: '' };
    const { name, record, hall } = this.session;
    const found = (await hall.database.before()).filter(({ game }) => game === record.game.id).pop();
    if (!found || found.bytes.length !== kept) throw new Refused(message('undo.kept_is_gone', { kept: name }));
    return found;
  }

  /** @type {(line: string, put: PutIn, kept: { times: string }, content: Uint8Array, now: import('../game/course.js').Course) => Promise<Words>} */
  async putBack(line, put, kept, content, now) {
    const { session } = this;
    const { course, playing: { alarms: { looks } } } = session;
    const left = looks.without(settled(course.plies, alike(course.plies, now.plies)));
    const size = put.kept > 0 ? put.kept : put.from;
    const text = put.kept > 0 ? kept.times : session.times.all;
    const goesOn = put.before.end === null && now.result === '*';
    const done = wordsOfUndone(line, course, now);
    /** @type {TimesOf} */
    const timesOf = (game, capture, words) => {
      const told = goesOn ? words : [];
      return text && size > 0 ? session.times.upTo(size, game, capture, 0, text, told) : session.times.next(game, capture, 0, told);
    };
    const typedTo = goesOn ? content.length : put.before.typedTo;
    await session.renew(content, true, { ...put.before, typedTo, looks: left.kept, goneBack: session.goneBack + 1 }, timesOf);
    return linked('stop', [done, ...aboutLooks(looks, left), KEPT]);
  }

  /** @type {(said: Back) => Promise<Words>} a game that is over goes on, with what was played on its board after its result */
  async goOn(said) {
    const { session } = this;
    const { capture, hall: { calls }, options, playing: { alarms } } = session;
    const { plies, result } = session.course;
    const isLeft = result === '*' && session.next.awaited !== null; // for the next game, which somebody has asked for
    const how = isLeft ? AS_IT_IS : takenUp(result, said, session.cable.isOpen);
    const cut = how === CUT ? await session.endBehind(plies.length) : null;
    if (how === REFUSED || (how === CUT && cut === null)) throw refuseBack(said, '*', plies);
    const content = how === CUT ? capture.bytes(Number(cut)) : said.put || capture.view();
    const now = await gameOf(calls, options, how === AS_IT_IS ? capture.view() : content);
    const { name } = session;
    const since = playedSince(plies, now.plies);
    if (how === AS_IT_IS) {
      await session.goOn();
      return isLeft ? message('over.goes_on_as_it_is', { name, since }) : message('over.goes_on', { name, since });
    }
    const changes = { end: null, typedTo: content.length, looks: alarms.looks.kept, goneBack: session.goneBack + 1 };
    await session.renew(content, true, changes);
    const done = wordsOfBack(plies, plies.length, result);
    const goesOn = result === '*' || how === CUT ? message('over.goes_on_so', { name, done }) : message('over.goes_on', { name, since });
    return linked('stop', [goesOn, KEPT]);
  }
}
