// Two boards whose cables may have been exchanged, though no square shows it and no serial number; and boards with one number.

import { differing, pictureOfPlacement } from '../line/protocol.js';

/** @typedef {Gap & { number: string, placement: string }} Returned what tells a board from others: its number, if it has one, and what it shows */

const TOGETHER = 60.0; // seconds between two cables that somebody may have exchanged
const APART = 2; // squares on which two boards that stand alike differ at most: a move was just made, or a piece is in a hand
const SHOWN = 1.0; // seconds after which a board that is heard again has shown how it stands

/** @type {(one: string, other: string) => boolean} whether two boards show the same, or almost, if it is known what both show */
function standAlike(one, other) {
  return Boolean(one && other) && differing(pictureOfPlacement(one), pictureOfPlacement(other)).length <= APART;
}

/** Whether two boards went within a minute, both were away at a time, nothing tells them apart, and both stand alike.
 * @type {(one: Returned, other: Returned) => boolean} */
export function mayBeExchanged(one, other) {
  const went = Math.abs(one.heardAt - other.heardAt) <= TOGETHER;
  const met = one.heardAt <= other.cameAt && other.heardAt <= one.cameAt;
  return went && met && one.number === other.number && standAlike(one.placement, other.placement);
}

/** The serial number of this board has just become known. The boards that have it; none if no other one does. `serials` has the number of
 * each, empty if it has none.
 * @type {(serials: Map<number, string>, board: number) => number[]} */
export function sameNumber(serials, board) {
  const same = [...serials.keys()].filter((one) => serials.get(one) && serials.get(one) === serials.get(board));
  return same.length > 1 ? same.sort((one, other) => one - other) : [];
}

export class Exchanges {
  /** @param {Hall} hall */
  constructor(hall) {
    this.hall = hall;
    /** @type {Map<number, number>} */
    this.cameBack = new Map(); // the seats whose boards are just heard again, and when each has shown how it stands
  }

  /** @type {(seat: Seat) => void} its board was away, and is there again: perhaps on the cable of another one that was away too */
  back({ id }) {
    const { loop } = this.hall;
    if (this.cameBack.size === 0) loop.after(SHOWN, () => this.suspect());
    this.cameBack.set(id, loop.now() + SHOWN);
  }

  /** @type {(seat: Seat) => void} the serial number of its board has just become known: perhaps other boards have the same */
  numbered({ id }) {
    const seats = this.hall.recorded();
    const same = sameNumber(new Map(seats.map((seat) => [seat.id, seat.serial])), id);
    for (const seat of seats.filter((one) => same.includes(one.id))) {
      seat.guard.call(() => seat.session.sharesNumber(same.filter((other) => other !== seat.id)));
    }
  }

  /** Boards that have come back have shown how they stand. Each seat is told with which others its own may be exchanged. */
  suspect() {
    const { loop } = this.hall;
    const before = this.cameBack;
    this.cameBack = new Map([...before].filter(([, shown]) => shown > loop.now()));
    if (this.cameBack.size > 0) loop.after(SHOWN, () => this.suspect());
    const away = this.hall.recorded().flatMap((seat) => {
      const { id, returned } = seat;
      return returned && !this.cameBack.has(id) ? [{ id, returned, seat, isNews: before.has(id) }] : [];
    });
    for (const { id, returned, seat, isNews } of away) {
      const others = away.filter((other) => other.id !== id && (isNews || other.isNews) && mayBeExchanged(returned, other.returned));
      if (others.length > 0) seat.guard.call(() => seat.session.suspect(others.map((other) => other.id)));
    }
  }
}
