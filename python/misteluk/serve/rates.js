// How many rows a second came in over the last hour, as a picture: the time goes from left to right, the rows go up.
import { ask, number, the } from "./asking.js";

const width = 1000, height = 100, pause = 10000;
// The rates of whole steps, the last of them last, how many seconds a step has, and when the last one ended.
let rates = [], step = 10, end = new Date();

const drawn = (kind, d) => {
    const made = document.createElementNS("http://www.w3.org/2000/svg", "path");
    made.setAttribute("class", kind);
    made.setAttribute("d", d);
    return made;
};
const rate = (it) => it < 10 ? it.toLocaleString("en", { maximumSignificantDigits: 2 }) : number(Math.round(it));
const clock = (it) => it.toLocaleTimeString("en-GB");
const lasted = (seconds) => seconds < 120 ? `${number(Math.round(seconds))} s` : `${number(Math.round(seconds / 60))} minutes`;
const summary = () => {
    const most = Math.max(...rates), mean = rates.reduce((a, b) => a + b, 0) / rates.length;
    return `at most ${rate(most)}, ${rate(mean)} in the mean`;
};
const tell = (at = null) => {
    const begin = at === null ? null : new Date(end - (rates.length - at) * step * 1000);
    the("rates-told").textContent = rates.length === 0 ? "" : at === null ? summary()
        : `${clock(begin)} to ${clock(new Date(+begin + step * 1000))}: ${rate(rates[at])}`;
};
const draw = () => {
    const picture = the("rates-picture"), most = Math.max(...rates, 0) || 1, part = width / Math.max(rates.length, 1);
    const y = (it) => (height - (it / most) * (height - 4)).toFixed(1);
    const top = rates.map((it, at) => `${(at * part).toFixed(1)},${y(it)} ${((at + 1) * part).toFixed(1)},${y(it)}`).join(" ");
    picture.replaceChildren(...rates.length === 0 ? [] : [
        drawn("area", `M0,${height} L${top} ${width},${height} Z`), drawn("line", `M${top}`)]);
    picture.setAttribute("aria-label", rates.length === 0 ? "No whole ten seconds yet"
        : `Rows a second over the last ${lasted(rates.length * step)}: ${summary()}`);
    the("rates-begin").textContent = rates.length === 0 ? "" : `${lasted(rates.length * step)} ago`;
};

const look = async () => {
    const told = await (await ask("v1/rate")).json();
    step = told.step;
    rates = told.rows.slice(0, -1).map((it) => it / step);
    end = new Date(Date.now() - told.age * 1000);
    draw();
    tell();
    the("rates-end").textContent = "now";
};
// Looks now, and again and again. Where the server doesn't answer the picture says when it ends. (Why it does other parts say.)
export const begin = () => {
    const again = () => look().catch(() => { the("rates-end").textContent = clock(end); });
    the("rates-picture").addEventListener("pointermove", (event) => {
        const box = the("rates-picture").getBoundingClientRect(), at = Math.floor((event.clientX - box.x) / box.width * rates.length);
        if (at >= 0 && at < rates.length) tell(at);
    });
    the("rates-picture").addEventListener("pointerleave", () => tell());
    again();
    setInterval(again, pause);
};
