// How large the cards are: as large as possible with all of them in sight, or of a size that can be read.

/** @typedef {{ columns: number, areAll: boolean }} Fitted */

const LEAST = 13; // pixels of a letter: smaller ones can't be read on a laptop
const LEAST_TILE = 200; // pixels of a card: a smaller one has no room for a name
const DENSE_TILE = 150; // the same for somebody who must see many boards at once: names are cut rather
const FLAT_TILE = 140; // the same of a card with one line for each player
const FLAT_TEXT = 6.2; // letters in the height of such a card beside its diagram
const WIDE = 700; // pixels of a screen on which cards may be flat
const TEXT = 8.6; // letters in the height of a card beside its diagram: a head, two lines for each player, a foot
const EDGES = 3; // pixels of its border
const TRIES = 3; // a smaller card may have more lines
/** @type {{ [key: string]: number | undefined }} */
const ASIDE = { ArrowLeft: -1, ArrowRight: 1 };
/** @type {{ [key: string]: number | undefined }} */
const DOWN = { ArrowUp: -1, ArrowDown: 1 };

/**
 * Sizes the cards in their list, and returns the number of columns. `groups` are the numbers of cards that stand together: each
 * group begins a row. `below` are pixels that are needed besides the cards. If the cards are to be dense, they get smaller, and flat,
 * before some of them are out of sight.
 * @type {(list: HTMLElement, groups: number[], below?: number, isDense?: boolean) => number}
 */
export function fit(list, groups, below = 0, isDense = false) {
  list.classList.remove('flat');
  const { columns, areAll } = fitted(list, groups, below, TEXT, isDense ? DENSE_TILE : LEAST_TILE);
  if (areAll || !isDense || window.innerWidth < WIDE) return columns;
  list.classList.add('flat');
  return fitted(list, groups, below, FLAT_TEXT, FLAT_TILE).columns;
}

/**
 * The number of columns with cards of at least this width, and whether all of them are in sight.
 * @type {(list: HTMLElement, groups: number[], below: number, text: number, least: number) => Fitted}
 */
function fitted(list, groups, below, text, least) {
  let most = text;
  let found = sized(list, groups, below, most, least);
  for (let tries = 0; tries < TRIES; tries += 1) {
    const { letters, text: high } = measured(list);
    if (high <= most * letters + EDGES) break;
    most = (high - EDGES) / letters;
    found = sized(list, groups, below, most, least);
  }
  return found;
}

/**
 * The size of a letter, and the height of all that a card has beside its diagram, where that is most.
 * @type {(list: HTMLElement) => { letters: number, text: number }}
 */
function measured(list) {
  const texts = [.../** @type {NodeListOf<HTMLElement>} */ (list.querySelectorAll('.tile'))].map((tile) => tile.offsetHeight - tile.offsetWidth);
  return { letters: Number.parseFloat(list.style.getPropertyValue('--letters')), text: Math.max(0, ...texts) };
}

/**
 * The rows of the cards: the place of the first card in each, and how many there are.
 * @type {(groups: number[], columns: number) => { first: number, count: number }[]}
 */
function rowsOf(groups, columns) {
  const rows = [];
  let first = 0;
  for (const count of groups) {
    for (let begin = 0; begin < count; begin += columns) rows.push({ first: first + begin, count: Math.min(columns, count - begin) });
    first += count;
  }
  return rows;
}

/** @type {(list: HTMLElement, groups: number[], below: number, text: number, least: number) => Fitted} */
function sized(list, groups, below, text, least) {
  const most = Math.max(...groups);
  const gap = window.innerWidth < 700 ? 8 : 12;
  const width = document.documentElement.clientWidth - 2 * gap;
  const height = window.innerHeight - list.offsetTop - gap - below;
  /** @type {(wide: number) => number} */
  const letters = (wide) => Math.min(24, Math.max(LEAST, wide / 18));
  /** @type {(wide: number) => number} */
  const high = (wide) => text * letters(wide) + EDGES;
  let best = 0;
  let columns = 1;
  for (let number = 1; number <= most; number += 1) {
    const rows = rowsOf(groups, number).length;
    const room = height / rows - gap;
    let wide = Math.min((width + gap) / number - gap, 720);
    while (wide > least && wide + high(wide) > room) wide -= 1;
    if (wide > best + 2 && wide + high(wide) <= room) {
      best = wide;
      columns = number;
    }
  }
  const areAll = best >= least;
  if (!areAll) {
    columns = Math.max(1, Math.floor((width + gap) / (least + gap)));
    best = (width + gap) / columns - gap;
    if (least === LEAST_TILE) columns = Math.ceil(most / Math.ceil(most / columns)); // as many rows, and the last one not much shorter
  }
  list.style.setProperty('--tile', `${Math.floor(best)}px`);
  list.style.setProperty('--columns', String(columns));
  list.style.setProperty('--letters', `${letters(best)}px`);
  list.style.setProperty('--gap', `${gap}px`);
  return { columns, areAll };
}

/**
 * The place to which an arrow, Home or End leads from a card, or -1 if it leads nowhere; undefined for any other key.
 * @type {(key: string, here: number, groups: number[], columns: number) => number | undefined}
 */
export function placeAfter(key, here, groups, columns) {
  if (key === 'Home') return 0;
  if (key === 'End') return groups.reduce((sum, count) => sum + count, 0) - 1;
  const aside = ASIDE[key];
  const down = DOWN[key];
  if (aside === undefined && down === undefined) return undefined;
  if (here < 0) return 0;
  if (aside) return here + aside;
  const rows = rowsOf(groups, columns);
  const row = rows.findIndex(({ first, count }) => here < first + count);
  const to = rows[row + Number(down)];
  if (!to) return -1;
  return to.first + Math.min(here - rows[row].first, to.count - 1);
}
