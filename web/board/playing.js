// The game of a board, as the program reports it: its moves and its result, its alarms, how it ends, and its text.

import { wordsOf, shownOf } from '../child/report.js';
import { Alarms, ISNT_OVER, corrected, textOfLook, unheard, wentOn } from '../game/alarms.js';
import { Course, publishedOf, textOf } from '../game/course.js';
import { countingForfeit } from '../game/forfeits.js';
import { reached } from '../game/typed.js';
import { linked, message } from '../../live/show/page/message.js';

const HOW = message('press.no_result');
// Why a game is over, as the program says it.
const [CORRECTED, STOOD, UNFINISHED] = ['CORRECTED', 'STOOD', 'UNFINISHED'];
/** @type {{ [why: string]: Words }} */
const WHY = {
  STOOD: message('over.has_a_result'),
  'PLAYS-ON': message('over.if_it_goes_on', { why: message('over.played_on'), how: HOW }),
  [CORRECTED]: message('over.if_it_goes_on', { why: message('over.corrected'), how: HOW }),
  'SET-UP': message('over.has_a_result'),
  [UNFINISHED]: linked('stop', [message('over.set_up'), message('over.give_its_result')]),
};

export class Playing {
  /** @param {Session} session */
  constructor(session) {
    this.session = session;
    this.text = new GameText(session);
    this.opened = 0; // bytes of the capture when its game was opened
    this.played = 0; // moves that were made though the game is over, as the program says
    this.raised = /** @type {Raised[]} */ ([]); // alarms of the program that nobody has been told of
    this.differs = /** @type {string[]} */ ([]); // the squares that the report has named last
    this.newest = ''; // of the game, as it was shown last
    // What `readAgain` sets.
    this.course = new Course();
    this.alarms = new Alarms();
    this.old = 0; // bytes whose report isn't news
    this.isOld = true;
    this.endsAt = Infinity; // how many bytes are the game's, once the program has said so
  }

  /** @type {(size: number) => void} this is another capture, which has so many bytes now */
  take(size) {
    this.opened = size;
    this.raised = [];
    this.played = 0;
  }

  /** @type {(old: number) => void} all lines are heard again; so many bytes of the capture are known */
  readAgain(old) {
    this.old = old;
    this.isOld = true;
    this.course = new Course();
    this.alarms = new Alarms(this.session.record.game.looks);
    this.endsAt = Infinity;
  }

  get hasMoves() {
    return this.course.plies.length > 0;
  }

  /** How the game was forfeited; empty if it is played. */
  get forfeit() {
    return countingForfeit(this.session.record.game.forfeit || '', this.course.plies.length, this.course.result);
  }

  /** @type {(line: Line) => void} the next line of the report, if it is the game's */
  hear(line) {
    const { record } = this.session;
    const { offset, event } = line;
    const isOld = offset < this.old;
    if (this.isOld && !isOld) this.tellOld();
    if (event.kind === 'differs') this.differs = event.squares;
    if (record.game.end !== null && offset >= record.game.end) return;
    this.course.take(line);
    if (isOld || offset >= this.endsAt) return;
    if (event.kind === 'recovered') {
      this.session.says(message('board.recovered', { pair: event.text }));
    } else if (event.kind === 'move' || event.kind === 'result') {
      this.hearChange(event, offset);
    }
  }

  /** @type {(change: Change, offset: number) => void} */
  hearChange(change, offset) {
    const { session } = this;
    session.says(shownOf(change));
    this.text.want();
    if (change.kind !== 'result' || change.outcome === '*') return;
    session.says(offset < session.typedTo ? message('over.ends_if_meant') : message('over.ends_unless_changed'));
  }

  /** All lines have been heard. */
  heardAll() {
    if (this.isOld) this.tellOld();
    const { newest } = this.course;
    const isNews = newest !== this.newest;
    this.newest = newest;
    return isNews;
  }

  /** Takes over what was played earlier. */
  tellOld() {
    this.isOld = false;
    if (this.session.isOver) this.tellPlayed();
    else this.tellRaised();
  }

  // Alarms.

  /** @type {(looks: Raised[]) => void} nobody need look at a game that is over, unless it goes on */
  raises(looks) {
    this.raised.push(...looks);
    if (!this.isOld && !this.session.isOver) this.tellRaised();
  }

  tellRaised() {
    const raised = this.raised.splice(0);
    for (const look of this.alarms.raise(raised, this.course)) this.tellLook(look);
  }

  /** @type {(look: Look | null, ...otherwise: Words[]) => void} */
  tellLook(look, ...otherwise) {
    if (!look) return;
    const advice = linked('semicolon', [message('advice.look', { how: message('press.ok') }), ...otherwise]);
    this.session.says(linked('stop', [textOfLook(look), advice]));
    this.looksChanged();
  }

  looksChanged() {
    this.session.record.changes({ looks: this.alarms.looks.kept });
    this.session.changed();
  }

  /** Whether there is something to look at since moves were made after the game's end. */
  get isPlayedOn() {
    return this.session.isOver && (this.session.record.game.played || 0) > 0 && this.alarms.hasPlayed;
  }

  /** So many moves were made though the game is over: somebody must look, once for each of them. */
  tellPlayed() {
    const { record } = this.session;
    const { plies, result } = this.course;
    if (this.played <= (record.game.played || 0)) return;
    record.game = { ...record.game, played: this.played };
    this.tellLook(this.alarms.add(wentOn(reached(plies), this.played, result)), ISNT_OVER);
  }

  // Its end.

  /** @type {(end: End) => void} before the lines of the answer with which the game is over: behind its end is no move of it */
  endsSoon({ over, begins }) {
    if (over && begins === null && !this.session.isOver) this.endsAt = over.bytes;
  }

  /** @type {(over: Over) => void} the program says so: what came behind its bytes was no part of the game */
  isOverSo({ why, bytes, isSure }) {
    const { plies, settledAt } = this.course;
    this.alarms.end(bytes);
    if (why === UNFINISHED) this.tellSetUp(plies.filter((_, at) => settledAt[at] >= bytes), isSure);
    if (why === CORRECTED) this.tellLook(this.alarms.add(corrected(reached(plies))));
    if (why === STOOD && !isSure) this.tellLook(this.alarms.add(unheard(reached(plies))), ISNT_OVER);
    this.session.closeGame(bytes, WHY[why] || why);
  }

  /** @type {(plies: Move[], isSure: boolean) => void} pieces were set up before a result was given, with these plies */
  tellSetUp(plies, isSure) {
    const { session } = this;
    if (plies.length > 0) session.says(message('over.dropped', { plies: plies.map(wordsOf).join('; ') }));
    if (!isSure) session.says(message('over.end_not_sure', { pgn: session.name }));
  }
}

/** The text of a game, which is made anew whenever the game has changed. */
class GameText {
  /** @param {Session} session */
  constructor(session) {
    this.session = session;
    this.pgn = '';
    this.isWanted = false; // anew
    this.isMaking = false;
    this.made = /** @type {Promise<void> | null} */ (null); // ends when the wanted text is there
  }

  want() {
    this.isWanted = true;
    if (this.isMaking) return;
    this.session.guard.call(() => {
      this.made = this.make();
      return this.made;
    });
  }

  /** The text as it is shown; waits while a newer one is asked for. */
  async latest() {
    await this.made;
    return this.pgn;
  }

  /** @type {(end: number | null) => Promise<string>} of a game with this capture that is over, up to its end */
  async upTo(end) {
    await this.session.attending.read(); // whether it was forfeited is known by its lines
    const { capture, hall, options, playing } = this.session;
    return textOf(hall.calls, options, capture.view(Number(end)), playing.forfeit);
  }

  /** @type {() => Promise<string | null>} null if the game is read anew meanwhile */
  async now() {
    const { attending, isOver, playing, record } = this.session;
    if (isOver) return this.upTo(record.game.end);
    const pgn = await attending.text();
    return pgn && publishedOf(pgn, record.game.options, playing.forfeit);
  }

  async make() {
    const { around, attending, guard } = this.session;
    this.isMaking = true;
    try {
      while (this.isWanted && !guard.ended) {
        this.isWanted = false;
        const { epoch } = attending.showing;
        const text = await this.now();
        if (text !== null && epoch === attending.showing.epoch) {
          this.pgn = text;
          around.tells({ kind: 'placed' });
        } else {
          this.isWanted = true;
        }
      }
    } finally {
      this.isMaking = false;
    }
  }
}
