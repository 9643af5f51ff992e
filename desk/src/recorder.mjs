// The plug recorder: scans made on the desk, the reports of the channels, and what they come to in words and degrees.
import { CHANNELS, TALLY, hex, pageOf, wordAt } from "./layout.mjs";
import { counted } from "./words.mjs";

const MOST_GAPS = 5; // that are told one by one

// Makes the job's next scan. Its own line words run before the first. Answers what is told, and whether it is bad; null without one.
export function nextScan(desk) {
  if (desk.scansMade === desk.scans.length) return null;
  const number = desk.scansMade + 1, { channels, lines, line } = desk.scans[desk.scansMade], { library } = desk;
  if (desk.scansMade === 0) desk.runOwn();
  const why = library.scan(lines, channels);
  desk.scansMade = number;
  if (why !== 0)
    return { words: `Scan ${number} is refused and counts nothing: ${desk.words.refusal(why)} (line ${line} of the job).`, bad: true };
  desk.rows.push(channels);
  desk.steps += lines.length;
  const missing = channels.flatMap((value, n) => (value === null ? [n] : [])), blanks = wordAt(library.tally, TALLY.blanks);
  const first = wordAt(library.tally, TALLY.address);
  desk.hit = blanks > 0 ? pageOf(first) : null;
  const cards = missing.length === 0 ? "all cards in" : `no card in ${missing.length === 1 ? "channel" : "channels"} ${missing.join(", ")}`;
  const met = blanks > 0 ? `; ${counted(blanks, "step")} met a blank, the first at ${hex(first)}` : "";
  return { words: `Scan ${number}: ${cards}${met}.`, bad: missing.length > 0 };
}

export function reports(library) {
  return Array.from({ length: CHANNELS }, (_, channel) => library.reportOf(channel));
}

// The table that the program record prints.
export function tableOf(all) {
  const rows = ["channel  readings  blanks  lowest  highest     average"];
  all.forEach((one, n) => {
    const none = one.readings === 0, cell = (value, width) => String(value).padStart(width);
    const told = (value, width) => cell(none ? "--" : value, width);
    rows.push(cell(n, 7) + cell(one.readings, 10) + cell(one.blanks, 8) + told(one.lowest, 8) + told(one.highest, 9) +
      told(one.sum, 12) + (none ? "" : `/${one.readings}`));
  });
  return rows.join("\n") + "\n";
}

// Tenths of a degree in degrees: 6.1.
export function degrees(tenths) {
  return (tenths / 10).toFixed(1);
}

// An average in degrees, rounded; the fraction of tenths is the average itself.
export function averageDegrees(report) {
  const rounded = (report.sum / report.readings / 10).toFixed(2);
  return rounded === "-0.00" ? "0.00" : rounded;
}

// A limit in tenths from what was written in degrees: null where nothing is, NaN where it is none.
export function limitOf(text) {
  const words = text.trim().replace(",", ".");
  if (words === "") return null;
  return /^-?[0-9]{1,3}(\.[0-9])?$/.test(words) ? Math.round(Number(words) * 10) : NaN;
}

// What is over a limit of tenths: how many readings, and whether the average is, exactly.
export function over(report, rows, channel, limit) {
  const readings = rows.filter((row) => row[channel] !== null && row[channel] > limit).length;
  return { readings, average: report.readings > 0 && report.sum > limit * report.readings };
}

// Stretches of scans, from 1, in which a channel had no card.
export function gaps(rows, channel) {
  const found = [];
  rows.forEach((row, n) => {
    if (row[channel] !== null) return;
    if (found.length > 0 && found.at(-1)[1] === n) found.at(-1)[1] = n + 1;
    else found.push([n + 1, n + 1]);
  });
  return found;
}

// The same in words, the first few of them: 5 to 8, 11, and 3 more times.
export function gapWords(rows, channel) {
  const all = gaps(rows, channel).map(([first, last]) => (first === last ? `${first}` : `${first} to ${last}`));
  const more = all.length > MOST_GAPS ? [`and ${counted(all.length - MOST_GAPS, "more time")}`] : [];
  return [...all.slice(0, MOST_GAPS), ...more].join(", ");
}

// A channel in a sentence, for who can't see its picture.
export function inWords(report, rows, channel, limit) {
  const missing = gapWords(rows, channel);
  const parts = [`Channel ${channel}: ${counted(report.readings, "reading")}`];
  if (report.readings > 0)
    parts.push(`from ${degrees(report.lowest)} to ${degrees(report.highest)} degrees, average ${averageDegrees(report)}`);
  if (missing !== "") parts.push(`no card in scan ${missing}`);
  if (limit !== null) {
    const high = over(report, rows, channel, limit);
    const readings = high.readings === 0 ? "no reading" : counted(high.readings, "reading");
    parts.push(`limit ${degrees(limit)}: ${readings} over it${high.average ? ", the average is over it" : ""}`);
  }
  return parts.join("; ") + ".";
}
