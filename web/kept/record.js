// What is kept of a board and of its game, besides bytes and times. If it can't be kept, it is tried again.

import { message } from '../../live/show/page/message.js';

export class GameRecord {
  /** @param {Database} database @param {Board} board @param {Game} game @param {(text: Words) => void} says */
  constructor(database, board, game, says) {
    this.database = database;
    this.board = board;
    this.game = game;
    this.says = says;
    this.isUnkept = false; // whether the game couldn't be kept
    this.keeping = /** @type {Promise<void> | null} */ (null); // ends when it was last kept, or couldn't be
  }

  get name() {
    return this.game.name;
  }

  /** @type {(more: Partial<Game>) => Promise<void>} is known of the game; the promise ends when that is kept, or couldn't be */
  changes(more) {
    this.game = { ...this.game, ...more };
    return this.keep();
  }

  keep() {
    this.keeping = this.database.putGame(this.game).then(
      () => {
        this.isUnkept = false;
      },
      (error) => {
        if (!this.isUnkept) this.fails(error);
        this.isUnkept = true;
      },
    );
    return this.keeping;
  }

  /** @type {(texts: string[]) => Promise<unknown>} which its file may have soon: so the page knows them again, whenever its tab is killed */
  keepTexts(texts) {
    this.game = { ...this.game, texts };
    return this.database.putGame(this.game);
  }

  /** @type {(more: Partial<Board>) => void} is known of the board */
  knows(more) {
    this.board = { ...this.board, ...more };
    this.database.putBoard(this.board).catch((error) => this.fails(error));
  }

  /** @type {(error: Error) => void} */
  fails(error) {
    this.says(message('keep.change', { why: error.message }));
  }
}
