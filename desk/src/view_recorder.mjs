// The recorder: a picture and a row for each channel, limits, and a page to print.
import { CHANNELS } from "./layout.mjs";
import { at, made, tell } from "./elements.mjs";
import { averageDegrees, degrees, gapWords, limitOf, nextScan, over, reports } from "./recorder.mjs";
import { picture } from "./picture.mjs";
import { counted, grouped } from "./words.mjs";

const HEADS = ["channel", "readings", "blanks", "lowest, °C", "highest, °C", "average, tenths", "average, °C", "limit, °C", ""];

export class RecorderView {
  // `repeat` does work again and again without stopping the page.
  constructor(desk, about, refresh, repeat) {
    this.desk = desk, this.about = about, this.refresh = refresh, this.repeat = repeat;
    this.limits = {}; // by channel, in tenths
    this.figures = Array.from({ length: CHANNELS }, (_, channel) => this.figure(channel));
    at("channels").append(...this.figures.map((one) => one.element));
    at("scan").onclick = () => this.scan();
    at("scans-all").onclick = () => this.all();
    at("print").onclick = () => print();
    addEventListener("beforeprint", () => { at("report-date").textContent = `Printed ${new Date().toLocaleString("en-GB")}.`; });
    at("limit-all").onchange = () => this.limit(at("limit-all"), [...Array(CHANNELS).keys()]);
  }

  figure(channel) {
    const drawn = made("div"), caption = made("span"), name = made("b", { textContent: `Channel ${channel} ` });
    const limit = made("input", { id: `limit-${channel}`, "aria-label": `limit of channel ${channel} in degrees` });
    limit.onchange = () => this.limit(limit, [channel]);
    const head = made("figcaption", {}, made("label", { className: "no-print" }, "limit °C ", limit), name, caption);
    return { drawn, caption, limit, element: made("figure", { id: `channel-${channel}` }, head, drawn) };
  }

  // Sets the limit of channels from what was written, in degrees.
  limit(input, channels) {
    const limit = limitOf(input.value), good = !Number.isNaN(limit);
    input.classList.toggle("wrong", !good);
    if (!good) return tell(`'${input.value}' is no limit: degrees with at most one digit after the point are needed, as 5.0 or -18.`, true);
    for (const channel of channels) {
      if (limit === null) delete this.limits[channel];
      else this.limits[channel] = limit;
    }
    this.show();
    const whose = channels.length === 1 ? `channel ${channels[0]}` : "every channel";
    if (limit === null) return tell(`No limit for ${whose} any more.`);
    const all = reports(this.desk.library), high = (channel) => over(all[channel], this.desk.rows, channel, limit);
    const above = channels.filter((channel) => high(channel).readings > 0);
    const which = `channel${above.length === 1 ? "" : "s"} ${above.join(", ")}`;
    const some = above.length === 0 ? "no reading over it" : `readings over it in ${which}`;
    const found = channels.length === 1 ? judged(all[channels[0]], high(channels[0])) : some;
    tell(`At most ${degrees(limit)} °C for ${whose}: ${found}.`, above.length > 0);
  }

  scan() {
    const told = nextScan(this.desk);
    if (told === null) return tell(this.none());
    this.desk.done(told.words);
    tell(told.words, told.bad);
    this.refresh();
  }

  none() {
    if (this.desk.scans.length > 0) return "The job has no further scan.";
    return "The job has no scans: a line of its text, scan 205 -- .., is one.";
  }

  // Tells a scan in the log; answers whether one is left.
  logged(told) {
    if (told !== null) this.desk.log.add(this.desk.steps, null, told.words, told.bad);
    return told !== null;
  }

  // All that are left; then which channels had no card, and how many scans were refused.
  async all() {
    const { desk } = this, first = desk.scansMade + 1, rows = desk.rows.length;
    if (desk.scansMade === desk.scans.length) return tell(this.none());
    const progress = () => tell(`${grouped(desk.scansMade)} of ${counted(desk.scans.length, "scan")} …`);
    await this.repeat(() => this.logged(nextScan(desk)), progress);
    desk.done(`scans ${first} to ${desk.scansMade} made`);
    const asked = desk.scansMade - first + 1, refused = asked - (desk.rows.length - rows);
    const blanks = [...reports(desk.library).map((report) => report.blanks).entries()].filter(([, count]) => count > 0);
    const missing = blanks.map(([channel, count]) => `channel ${channel} in ${counted(count, "scan")} (${gapWords(desk.rows, channel)})`);
    const why = refused > 0 ? ` ${counted(refused, "scan")} refused: What happened tells why.` : "";
    const cards = missing.length > 0 ? `No card: ${missing.join(", ")}.` : "Every channel had its card in every scan.";
    tell(`${counted(asked - refused, "scan")} made.${why} ${cards}`, missing.length > 0 || refused > 0);
    this.refresh();
  }

  // Draws what there is, if anything has changed since it was drawn.
  show() {
    const { desk } = this, now = [desk.name, desk.scans, desk.scansMade, desk.rows, desk.rows.length, JSON.stringify(this.limits)];
    if (this.shown?.every((one, n) => one === now[n])) return;
    this.shown = now;
    const all = reports(desk.library), any = desk.scans.length > 0 || desk.rows.length > 0;
    const told = `${grouped(desk.scansMade)} of ${counted(desk.scans.length, "scan")} made`;
    at("scans").textContent = desk.scans.length === 0 ? "no scans in this job" : told;
    at("scan").disabled = at("scans-all").disabled = desk.scansMade === desk.scans.length;
    if (at("tab-recorder").querySelector(":focus:disabled")) at("print").focus(); // else who uses keys alone is back at the top
    at("channels").hidden = at("report").hidden = !any;
    all.forEach((report, channel) => this.showChannel(report, channel));
    const heads = HEADS.map((textContent) => made("th", { textContent, className: "number" }));
    at("report").replaceChildren(made("tr", {}, ...heads), ...all.map((report, channel) => this.row(report, channel)));
    const refused = desk.scansMade - desk.rows.length;
    const lost = refused > 0 ? `; ${counted(refused, "scan")} refused, which count nothing` : "";
    at("report-title").textContent = `Plug recorder: ${desk.name}, ${counted(desk.rows.length, "scan")}${lost}`;
    at("report-foot").textContent = `${this.about}. A missing card is a blank and counts to no average. Signed: ______________________`;
  }

  showChannel(report, channel) {
    const { drawn, caption, limit, element } = this.figures[channel], set = this.limits[channel] ?? null;
    drawn.innerHTML = picture(report, this.desk.rows, channel, set);
    caption.textContent = captioned(report);
    caption.className = set !== null && over(report, this.desk.rows, channel, set).average ? "over" : "";
    element.className = caption.className;
    if (document.activeElement !== limit) limit.value = set === null ? "" : degrees(set);
  }

  row(report, channel) {
    const set = this.limits[channel] ?? null, high = set === null ? null : over(report, this.desk.rows, channel, set);
    const told = report.readings === 0 ? ["--", "--", "--", "--"]
      : [degrees(report.lowest), degrees(report.highest), `${report.sum}/${report.readings}`, averageDegrees(report)];
    const cells = [channel, report.readings, report.blanks, ...told, set === null ? "" : degrees(set)];
    const kind = high && (high.average || high.readings > 0) ? "over" : report.blanks > 0 ? "missing" : "";
    const numbers = cells.map((textContent) => made("td", { className: "number", textContent }));
    return made("tr", { className: kind }, ...numbers, made("td", { textContent: judged(report, high) }));
  }
}

// What a report comes to beside a limit. Scans without the card are always told: nothing is known of them.
function judged(report, high) {
  const missing = report.blanks > 0 ? [`no card in ${counted(report.blanks, "scan")}`] : [];
  if (high === null) return missing.join("");
  const some = high.readings > 0 ? `${counted(high.readings, "reading")} over it` : "readings within it";
  const told = report.readings === 0 ? "no reading" : high.average ? "average over the limit" : some;
  return [told, ...missing].join("; ");
}

// A report in a picture's caption.
function captioned(report) {
  if (report.readings === 0) return report.blanks === 0 ? "no scan yet" : "no reading";
  const missing = report.blanks > 0 ? `, ${counted(report.blanks, "scan")} without card` : "";
  const average = `${report.sum}/${report.readings} tenths, ${averageDegrees(report)} °C`;
  return `${degrees(report.lowest)} to ${degrees(report.highest)} °C, average ${average}${missing}`;
}
