/** Messages: sentences of the catalogue, with what goes into their places. */
import { Complaint, isSame, linked, message, plural } from "/live/show/page/message.js";

const made = ([key, places]) => {
  const put = Object.entries(places).map(([name, place]) => [name, Array.isArray(place) ? made(place) : place]);
  return message(key, Object.fromEntries(put));
};

export function messages(counts, cases) {
  for (const [key, places, expected] of cases("made")) {
    counts.same(key, made([key, places]), expected);
    counts.same(`${key} is kept`, [made([key, places]).key, Object.keys(made([key, places]).places)], [key, Object.keys(places)]);
  }
  for (const one of cases("no messages")) {
    counts.refused(one[0], "RangeError", () => made(one));
  }
}

export function several(counts, cases) {
  for (const [key, count, expected] of cases("plural")) counts.same(expected, plural(key, count), expected);
  for (const [how, texts, expected] of cases("linked")) counts.same(expected, linked(how, texts), expected);
}

/** A message is an object. So it is compared as a text, and an error keeps it beside the text. */
export function texts(counts) {
  const white = message("side.white");
  counts.same("the same", [isSame(white, message("side.white")), isSame(white, "White"), isSame(white, "")], [true, true, false]);
  const { message: told } = new Complaint(white);
  counts.same("of an error", [told.key, String(new Complaint(white))], ["side.white", "Error: White"]);
}
