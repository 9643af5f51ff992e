// The picture of a channel: readings as dots, missing cards as gaps, a limit as a line. A missing card is never a zero.
import { degrees, gaps, inWords } from "./recorder.mjs";

const WIDTH = 220, HEIGHT = 88, LEFT = 38, RIGHT = 6, TOP = 8, BOTTOM = 18, LETTER = 11, WORDS = 44;

// The SVG of a channel over the scans that were made.
export function picture(report, rows, channel, limit) {
  const values = rows.flatMap((row) => (row[channel] === null ? [] : [row[channel]])), marks = limit === null ? values : [...values, limit];
  const [least, most] = marks.length === 0 ? [0, 0] : [Math.min(...marks), Math.max(...marks)], room = Math.max(1, (most - least) / 8);
  const low = least - room, high = most + room;
  const wide = (WIDTH - LEFT - RIGHT) / Math.max(rows.length, 1);
  const x = (n) => LEFT + wide * (n + 0.5), y = (value) => TOP + (HEIGHT - TOP - BOTTOM) * (high - value) / (high - low);
  const parts = [frame(rows.length), ...gaps(rows, channel).map((gap) => gapAt(gap, wide))];
  if (limit !== null) parts.push(`<path class="limit" d="M${LEFT} ${y(limit).toFixed(1)}H${WIDTH - RIGHT}"/>`);
  const dots = { reading: "", over: "" };
  rows.forEach((row, n) => {
    const value = row[channel], kind = limit !== null && value > limit ? "over" : "reading";
    if (value !== null) dots[kind] += `M${x(n).toFixed(1)} ${y(value).toFixed(1)}h.01`;
  });
  const size = Math.max(2, Math.min(5, wide)).toFixed(1);
  for (const [kind, path] of Object.entries(dots))
    if (path !== "") parts.push(`<path class="${kind}" stroke-width="${size}" d="${path}"/>`);
  parts.push(...scale([...(report.readings > 0 ? [report.highest, report.lowest] : []), ...(limit === null ? [] : [limit])], limit, y));
  const words = inWords(report, rows, channel, limit);
  return `<svg class="channel" viewBox="0 0 ${WIDTH} ${HEIGHT}" role="img" aria-label="${words}">${parts.join("")}</svg>`;
}

function frame(scans) {
  const bottom = HEIGHT - BOTTOM;
  const first = scans > 0 ? text(LEFT + 4, HEIGHT - 4, "scan 1", "start") : "";
  const last = scans > 1 ? text(WIDTH - RIGHT, HEIGHT - 4, String(scans), "end") : "";
  return `<path class="frame" d="M${LEFT} ${TOP}V${bottom}H${WIDTH - RIGHT}"/>${first}${last}`;
}

// A stretch without the card, from one scan to another.
function gapAt([first, last], wide) {
  const left = LEFT + wide * (first - 1), width = wide * (last - first + 1);
  const words = width > WORDS ? text(left + width / 2, HEIGHT / 2 - 2, "no card", "middle") : "";
  return `<rect class="gap" x="${left.toFixed(1)}" y="${TOP}" width="${width.toFixed(1)}" height="${HEIGHT - TOP - BOTTOM}"/>${words}`;
}

// Degrees beside the frame, from the top, none over another.
function scale(values, limit, y) {
  let free = 0;
  return [...new Set(values)].sort((one, other) => other - one).map((value) => {
    const at = Math.min(Math.max(y(value) + 3, free), HEIGHT - BOTTOM + 6);
    free = at + LETTER;
    return text(LEFT - 4, at, degrees(value), "end", value === limit ? "limit-text" : "");
  });
}

function text(x, y, words, anchor, kind = "") {
  return `<text class="${kind}" x="${x.toFixed(1)}" y="${y.toFixed(1)}" text-anchor="${anchor}">${words}</text>`;
}
