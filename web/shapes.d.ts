// The shapes that modules of web/ share, in the order of a byte's way; of a class its name alone. What one module needs stands there.

type Message = import('../live/show/page/message.js').Message;
type Words = import('../live/show/page/message.js').Words; // a text or a message

// run/

type Again = import('./run/guard.js').Again;
type Guard = import('./run/guard.js').Guard;
type Loop = import('./run/loop.js').Loop;
type Timer = { when: number; cancel: () => void };

// line/

/** Who hears a line: what the board sends; and, once, that it has gone away. */
type HearsLine = { heard: (bytes: Uint8Array) => void; lost: () => void };
type SerialLine = import('./line/line.js').SerialLine;

// child/

type Attendant = import('./child/program.js').Attendant;
type Program = import('./child/program.js').Program;
type Process = import('../hosts/process.mjs').Process;
type Calls = import('./child/worker.js').Calls; // what the page calls in the worker
type Failure = { key: string; places: { [name: string]: unknown } }; // of the worker; the page makes a message of it
type Outcome = { status: number; output: Uint8Array; errors: Uint8Array };

/** What is told of an event, or how much of it; null for a word alone. */
type Given = Uint8Array | number | null;

/** What is told, at a time of the clock that goes on in sleep, and `now` by the page's; whether the game's times have it. */
type Entry = { word: string; given: Given; at: number; now: number; isNoted: boolean };

type Answer = {
  kept: Uint8Array; // which the game gets
  game: Uint8Array | null; // its PGN, if it was asked for
  report: string[];
  looks: Raised[];
  handling: string; // whose board is on the cable: `keep`, `hold` or `other`
  other: string;
  number: string;
  asks: string; // what the board is sent
  end: End | null;
  clockStopped: boolean | null; // whether both sides have stopped a clock that ran; null if that isn't news
  state: Stands | null;
  due: number | null;
};

/** What somebody must look at: how many plies the game has there, or the number of a suspicion; 0 `moves` where none are counted. */
type Raised = { where: string; plies: number; why: string; moves: number };

/** How a game is over, with so many bytes of its capture; if that isn't sure, somebody must look. */
type Over = { why: string; result: string; bytes: number; isSure: boolean };

/** Of a game's end; null what isn't said: how many moves were `played` since, how many bytes are of the set-up before it `begins`. */
type End = { over: Over | null; played: number | null; begins: number | null };

/** How a board stands; `lasted` in milliseconds, null if that isn't known. */
type Stands = { kind: string; lasted: number | null; squares: string[]; hint: string; fits: string };

/** A picture settled this move, whose number is as `12...`, or corrected the last one. */
type Move = { kind: 'move'; number: string; san: string; clock: string; corrects: boolean };
type Change = Move | { kind: 'result'; outcome: string }; // `*` if there is none any more
type Clock = { kind: 'clock'; white: string; black: string };
type Picture = { kind: 'picture'; placement: string }; // a trusted one that differs from the one before
type Reported =
  | Change
  | Clock
  | Picture
  | { kind: 'differs'; squares: string[] } // the picture from the position
  | { kind: 'agrees' }
  | { kind: 'fault'; what: string } // bytes that are no frame
  | { kind: 'position'; fen: string } // the game has reached it
  | { kind: 'recovered'; text: string }; // two moves that no picture showed were added
type Line = { offset: number; event: Reported }; // of `watch`, `follow` or `recover`

// game/

type Course = import('./game/course.js').Course;
type Tags = { [name: string]: string }; // values, by the names of PGN

/** Of a game. What isn't given is null; then the day on which it began is its date. `tags` are published otherwise than recorded. */
type Options = {
  rotated: boolean;
  first: string | null;
  fen: string | null;
  event: string | null;
  site: string | null;
  date: string | null;
  round: string | null;
  white: string | null;
  black: string | null;
  recover: boolean | null;
  began: string | null;
  tags: Tags;
};

/** An alarm. `what` is short: `at 4... Qg4+`. A new alarm about the same thing replaces it. */
type Look = { what: Words; why: Words; about: string };

type Noted = [when: number, what: string, count: number | null]; // an event of a game's times, how much is null for a word alone
type Counted = [what: string, count: number];

/** A file of times: how often its game has gone back, what its heading describes and where that ends, and how far its events account. */
type Found = { version?: undefined; generation: number; size: number; digest: bigint; begins: number; ends: number; covered: number };

/** What `back` has answered: what goes, with the new capture; or why not, where `stays` is how many plies were to stay. */
type Back =
  | { kind: 'back'; stays: number; result: string; put: Uint8Array; rest?: undefined }
  | { kind: string; stays: number; rest: string; result?: undefined; put?: undefined };

/** What changes a game: plies are taken off, a line is read by the program, nobody plays, or a result is taken off. */
/** What `instead` has answered: what goes and comes, with the new capture; or why not, and what it says more. */
type Instead =
  | { kind: 'plies'; stays: number; come: number; put: Uint8Array; words?: undefined }
  | { kind: string; words: string[]; stays?: undefined; come?: undefined; put?: undefined };

type ChangeTyped = { kind: 'back'; to: string } | { kind: 'instead'; line: string }
  | { kind: 'recover'; moves: string } | { kind: 'added'; line: string } | { kind: 'forfeit'; forfeit: string } | { kind: 'reopened' } | { kind: 'undo' };

/** What a typed line has put into a capture: so many bytes that it has `made` in place of all that the kept one has, if any; and what it has
 * added, from one offset to another. And what was known of the game before it. */
type PutIn = { kept: number; made: number; from: number; to: number; before: Pick<Game, 'end' | 'typedTo' | 'overTo'> };

/** The line that was obeyed last, in which game and with which capture; what it has put in, or why that can't be taken out. */
type Obeyed = { line: string; game: number; name: string; capture: Capture; put: PutIn | null; why: Words };

type Reply = { done: boolean; said: Words }; // to a typed line

// kept/

type Capture = import('./kept/capture.js').Capture;
type Database = import('./kept/database.js').Database;
type GameRecord = import('./kept/record.js').GameRecord;
type Times = import('./kept/times.js').Times;
type TimesOf = (game: Game, capture: Capture, words: string[]) => Times; // makes those of a game's new capture

type Chunk = { number: number; at: number; bytes: Uint8Array }; // of a capture
type Row = { number: number; at: number; text: string }; // of a game's times
type Before = { game: number; name: string; at: number; bytes: Uint8Array; times: string }; // a capture before it was made anew

/** A board: the game that is on, and what the next one has, if it waits until the pieces are set up. */
type Board = { id: number; serial: string; info: SerialPortInfo; game: number; next?: Wanted | null };
type Wanted = { options?: Options; name?: string };

type Game = {
  id: number;
  board: number;
  name: string;
  options: Options;
  end: number | null; // how many bytes of its capture are its own, null if it goes on
  looks: Look[]; // that nobody has acknowledged
  goneBack?: number; // how often
  typedTo?: number; // where the last bytes end that somebody has typed
  overTo?: number; // where it ended before plies were taken off it, if it stays over
  played?: number; // moves that were made since it is over
  forfeit?: string;
  texts?: string[]; // those that its file may have soon
  filed?: { folder: string; name: string };
  hasBefore?: boolean; // whether a capture of it is kept as it was before
  isAgain?: boolean; // whether somebody has said that its names are right, though an earlier game has them
};
type Finished = Game & { pgn: string; bytes: Uint8Array; times: string }; // a game that is over

/** What a session begins with; the database may lack some of what an error has left. The rows are null if they can't be read. */
type Kept = { board: Board; game: Game; capture: Capture; times: Row[] | null; mayLack?: boolean };

/** What must be in the database when it is opened again. */
type Remembered = {
  boards: Board[];
  games: Game[];
  captures: (Chunk & { game: number })[];
  times: (Row & { game: number })[];
  settings: { name: keyof Settings; value: unknown }[];
};
type Settings = { folder: FileSystemDirectoryHandle; round: string[]; given: Tags }; // `round`: texts that round.pgn may have

// board/

type Session = import('./board/session.js').Session;
type Playing = import('./board/playing.js').Playing;
type Owner = { name: Words; hasMoves: boolean; isOver: boolean }; // the game that has a board

/** What goes up from a session, in order, in the turn in which it happens. */
type News =
  | { kind: 'said'; text: Words }
  | { kind: 'changed'; isNews: boolean }
  | { kind: 'placed' } // its text is another one
  | { kind: 'begun'; before: Finished } // another game begins behind this one
  | { kind: 'kept'; before: Before } // a new capture was made instead of this one
  | { kind: 'numbered'; number: string } // the board's number is known
  | { kind: 'returned' }; // its board was away, and is heard again

/** Who has a session, and knows the boards around it. */
type Around = {
  tells: (news: News) => void;
  nextName: (name: string) => string;
  owner: (number: string) => Owner | null;
  lends: (number: string, bytes: Uint8Array) => boolean; // that board's game gets these bytes; whether there is one
  takes: (number: string) => void; // this game gets that board
  gameBefore: { name: string; isUnended: boolean } | null;
};

type Gap = { heardAt: number; cameAt: number }; // when a board was away: when it was heard last, and again

// hall/

type Hall = import('./hall/hall.js').Hall;
type Seat = import('./hall/seat.js').Seat;
type Shown = import('./hall/seat.js').Shown;
type Recorded = Seat & { session: Session };
type Button = [label: Words, pressed: () => unknown];

/** What a board has told of itself: what it has sent, and its number, empty if it gives none; or that none answers. */
type Heard = { connection: SerialLine; came: Uint8Array[]; number: string; isSilent: boolean };

type Round = { Event: string; Site: string; Round: string; Date: string }; // as it is typed

// show/

type View = import('../live/show/page/tile.js').Board;
type Standing = Pick<View, 'state' | 'since' | 'alarm' | 'differing'> & { mend: Words };
type Messages = import('./show/messages.js').Messages;
type Panel = import('./show/panel.js').Panel;
