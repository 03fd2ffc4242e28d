/** Options: the words of a call of the program, and what is typed for a tag. */
import { ofBoard, ofLive, ofRecord, optionsOf, withTag, written } from "/web/game/options.js";

/** `x*101` is so many letters. */
function expanded(text) {
  const [letter, times] = text.split("*");
  return times ? letter.repeat(Number(times)) : text;
}

export function words(counts, cases) {
  for (const [given, ofRecording, ofReading] of cases("options")) {
    const options = optionsOf(given);
    counts.same(`record ${JSON.stringify(given)}`, ofRecord(options), ofRecording);
    counts.same(`watch ${JSON.stringify(given)}`, ofBoard(options), ofReading);
    const ofAttending = options.recover ? [...ofRecording, "--recover"] : ofRecording;
    counts.same(`live ${JSON.stringify(given)}`, ofLive(options).toSorted(), ofAttending.toSorted());
  }
}

export function typed(counts, cases) {
  for (const [tag, text, recorded, publishes] of cases("typed")) {
    const options = withTag(optionsOf(), tag, expanded(text), "White 7");
    const seen = [options[tag.toLowerCase()], written(options, tag)];
    counts.same(`${tag} ${text}`, seen, [expanded(recorded), expanded(publishes)]);
  }
  for (const text of cases("refused")) {
    const told = counts.refused(text, "Error", () => withTag(optionsOf(), "White", expanded(text), "White 7"));
    counts.same(`${text} says what to type`, told.includes("type"), true);
  }
}
