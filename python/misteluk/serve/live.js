// The page of a server: what the store holds, and who holds which version.
import { acting, ask, element, faults, number, refreshing, tell, the } from "./asking.js";
import { begin, know as knowVersion } from "./looking.js";
import { begin as beginRates } from "./rates.js";

// The version that this page holds, which a reload of it finds again, and when the server answered last.
let held = JSON.parse(sessionStorage.getItem("held")), keeping = null, answered = new Date();
const keepAs = (it) => {
    held = it;
    if (it === null) sessionStorage.removeItem("held");
    else sessionStorage.setItem("held", JSON.stringify(it));
};

const row = (it) => {
    const made = document.createElement("tr"), mine = held !== null && held.version === it.version;
    const others = it.clients - (mine ? 1 : 0), clients = `${others} ${mine ? "other " : ""}${others === 1 ? "client" : "clients"}`;
    const by = [...mine ? ["this page"] : [], ...others ? [clients] : []].join(" and ") || "nobody";
    made.append(element("td", it.is_last ? `${number(it.version)}, the last` : number(it.version)));
    made.append(element("td", number(it.vertices)), element("td", by));
    const act = element("td", "");
    if (mine) {
        const button = element("button", "Let go", { type: "button" });
        button.addEventListener("click", acting(letGo));
        act.append(button);
    }
    made.append(act);
    return made;
};
const choices = (versions) => {
    const select = the("beside"), chosen = select.value;
    const options = versions.filter((it) => !it.is_last || it.version === held?.version).map((it) =>
        element("option", `version ${number(it.version)}`, { value: it.version }));
    select.replaceChildren(element("option", "no other version", { value: "" }), ...options);
    select.value = options.some((it) => it.value === chosen) ? chosen : "";
};
// Which run of the server this page knows, and what it was told where another one took its place.
let server = null, anew = "";
const know = (told) => {
    if (server !== null && server !== told.server) anew = ` The server began anew, ${told.began}.`;
    server = told.server;
};
const states = {
    open: "No one feeds it.", followed: "Its feed is followed.", ended: "Its feed came to its end.",
    failed: "Its feed was ended by a fault", "a client feeds": "A client feeds it.",
};
// Each number says since when it stands still, where the server doesn't answer.
const age = (isGone) => {
    const text = isGone ? `no answer since ${answered.toLocaleTimeString("en-GB")}` : "";
    for (const it of document.querySelectorAll(".tiles .age")) if (it.textContent !== text) it.textContent = text;
};
// What the address says is looked at when the server has let this page in, which may still hold its version.
let hasBegun = false;
const begun = () => {
    if (hasBegun) return;
    hasBegun = true;
    keep().then(later);
    beginRates();
    dispatchEvent(new Event("hashchange"));
};
const look = refreshing(async () => {
    const told = await ask("v1/stat").then((it) => it.json()).catch((fault) => { age(server !== null); throw fault; });
    answered = new Date();
    age(false);
    the("entry").hidden = true;
    know(told);
    the("edges").textContent = number(told.edges);
    the("vertices").textContent = number(told.vertices);
    the("version").textContent = number(told.version);
    the("rate").textContent = number(Math.round(told.feed.rows_a_second));
    const half = (told.feed.half_line ? " Its last line had no end, and may be cut." : "")
        + (told.feed.replaced ? " Its file has another one in its place, which isn't read." : "");
    const fault = (told.feed.error ? `, ${told.feed.error}: ${told.feed.reason}.` : "") + half;
    the("feed").textContent = `${states[told.feed.state] ?? ""}${fault} ${number(told.feed.rows)} rows came in.${anew}`;
    knowVersion(told.version);
    if (held !== null && !told.held.some((it) => it.version === held.version)) await keep();
    the("held").tBodies[0].replaceChildren(...told.held.map(row));
    choices(told.held);
    the("hold").disabled = held !== null;
    begun();
});

// A version that this page holds, so that later ones can be seen beside it.
const hold = async () => {
    keepAs(await (await ask("v1/sessions", "POST")).json());
    faults.lost = "";
    later();
    await look();
    the("beside").value = held.version;
};
const letGo = async () => {
    const gone = held;
    keepAs(null);
    await ask(`v1/sessions/${gone.session}`, "DELETE");
    await look();
};
const keep = async () => {
    const mine = held;
    if (mine === null) return;
    await ask(`v1/sessions/${mine.session}`, "PUT").catch((fault) => {
        if (fault.status !== 410 || held !== mine) return;  // (one that doesn't answer now may hold it still)
        keepAs(null);
        faults.lost = `Version ${number(mine.version)}, which this page held, is lost: the server began anew, or heard `
            + `nothing from this page for ${mine.idle} s.`;
        the("hold").disabled = false;  // (who reads this can hold another one at once)
        tell();
        setTimeout(look);
    });
};
const later = () => {
    clearTimeout(keeping);
    if (held !== null) keeping = setTimeout(async () => { await keep(); later(); }, Math.min(held.idle / 3, 20) * 1000);
};

the("entry").addEventListener("submit", acting(async () => {
    sessionStorage.setItem("token", the("token").value);
    the("token").value = "";
    await look();
}));
the("hold").addEventListener("click", acting(hold));
setInterval(look, 1000);
begin();
look();
