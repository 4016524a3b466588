// What one looks at: a neighborhood, a table or a path. Each has an address, which a colleague can open.
import { acting, ask, element, number, refreshing, the } from "./asking.js";

// The tables that there are: the question that has each, its column, and how that column is called.
const tables = {
    out: ["degrees?by=out&", "out", "edges out"], into: ["degrees?by=into&", "into", "edges in"],
    weight: ["degrees?by=weight_out&", "weight_out", "weight out"], weights_in: ["weights_in?", "weight_in", "weight in"],
};
const filters = ["kind", "since", "until"], fields = { vertex: ["hops", "beside", "live"], from: ["to"], top: [] };
const parts = { vertex: "view", from: "walk", top: "top" };
let wait = null, looks = 0, last = 0;
// What is looked at, by which version it was answered, and the vertex that was chosen in it.
let seen = null, version = 0, chosen = "";

const value = (it) => it.type === "checkbox" ? it.checked ? it.value : "" : it.value.trim();

// What the address says, and the same in the fields that say it.
const asked = () => new URLSearchParams(location.hash.slice(1));
const kind = (given) => Object.keys(fields).find((it) => given.has(it));
const go = (given) => {
    clearTimeout(wait);  // (a search would take the fault of this away)
    const text = `#${given}`;
    if (location.hash === text) open();
    else location.hash = text;
};
const given = (what) => {
    const names = [what, ...fields[what], ...filters];
    const pairs = names.map((it) => [it, value(the(it))]).filter(([it, text]) => text !== "" || it === what);
    return new URLSearchParams(pairs.filter(([it, text]) => it !== "beside" || Number(text) !== last));
};
const fill = (it) => {
    for (const [name, text] of it) {
        const field = the(name);
        if (!(field instanceof HTMLInputElement || field instanceof HTMLSelectElement)) continue;
        if (name === "beside" && ![...field.options].some((one) => one.value === text)) {
            field.append(element("option", `version ${text}`, { value: text }));
        }
        if (field.type !== "checkbox") field.value = text;
    }
    the("live").checked = it.has("live");
    for (const name of filters) if (!it.has(name)) the(name).value = "";
    the("filters").open ||= filters.some((name) => it.has(name));
};
const scope = (it) => new URLSearchParams(filters.filter((name) => it.has(name)).map((name) => [name, it.get(name)]));

// Those who look at another thing meanwhile see that one.
const shown = async (what, title, made) => {
    const mine = ++looks;
    seen = null;
    the("next")?.remove();
    for (const it of Object.values(parts)) the(`${it}-part`).hidden = true;
    the("expand").hidden = true;
    the("view").hidden = true;
    the("working").hidden = false;
    const show = await made().finally(() => { if (mine === looks) the("working").hidden = true; });
    if (mine !== looks) return;
    document.title = `${title} · Misteluk`;
    const part = the(`${parts[what]}-part`);
    part.hidden = false;
    show();
    // (a browser draws no frame that is out of sight, as below the fields on a phone; and that one tells no height then)
    if (part.getBoundingClientRect().top > 0.7 * innerHeight) part.scrollIntoView();
    the("names").replaceChildren();
};
const link = (name) => element("a", name, { href: `#${new URLSearchParams({ vertex: name, hops: the("hops").value })}` });

// The page of a neighborhood, and which version it is of. (What is looked at isn't another one by being live.)
const paged = async (it) => {
    const known = ["hops", "beside", ...filters].filter((name) => it.has(name)).map((name) => [name, it.get(name)]);
    const answer = await ask(`v1/view?${new URLSearchParams([["around", it.get("vertex")], ...known])}`);
    return [await answer.text(), Number(answer.headers.get("misteluk-version"))];
};
const neighborhood = (it) => shown("vertex", it.get("vertex"), async () => {
    const [page, of] = await paged(it);
    return () => {
        // (a frame of its own for each page: one that gets its page while it is hidden stays without a height in some browsers)
        const view = the("view").cloneNode();
        [view.hidden, view.style.height, view.srcdoc] = [false, "", page];
        the("view").replaceWith(view);
        [seen, version, chosen] = [it, of, ""];
    };
});
// The same of the newest version: what is seen stays until the next page has told how high it is, so that nothing flickers.
const follow = async () => {
    const it = seen;
    if (!it?.has("live") || the("view").hidden || version >= last || document.hidden) return;
    const begun = Date.now(), [page, of] = await paged(it);
    rest = Date.now() + 2 * (Date.now() - begun);
    if (seen !== it) return;
    the("next")?.remove();
    const next = the("view").cloneNode();
    [next.id, next.className, next.srcdoc] = ["next", "next", page];
    the("view").after(next);
    version = of;
};
const instead = (next, height) => {
    the("view").remove();
    [next.id, next.className, next.style.height] = ["view", "", height];
};
const walk = (it) => shown("from", `${it.get("from")} to ${it.get("to")}`, async () => {
    const more = new URLSearchParams([["source", it.get("from")], ["target", it.get("to")], ...scope(it)]);
    const told = await (await ask(`v1/path?${more}`)).json();
    return () => {
        const steps = (told.path ?? []).map((name) => { const item = element("li", ""); item.append(link(name)); return item; });
        the("walk").replaceChildren(...steps);
        the("walk-told").textContent = told.path === null ? `No path leads there in version ${number(told.version)}.`
            : `${number(told.path.length - 1)} steps in version ${number(told.version)}`;
    };
});
const top = (it) => shown("top", `Top by ${(tables[it.get("top")] ?? tables.out)[2]}`, async () => {
    const [question, column, words] = tables[it.get("top")] ?? tables.out;
    const told = await (await ask(`v1/${question}top=20&${scope(it)}`)).json();
    const rows = told.columns.name.map((name, at) => {
        const row = element("tr", ""), cell = element("td", ""), value = told.columns[column][at];
        cell.append(link(name));
        row.append(cell, element("td", typeof value === "number" ? number(value) : value));
        return row;
    });
    return () => {
        the("top-told").textContent = `The ${number(rows.length)} with the most ${words}, version ${number(told.version)}`;
        the("top-head").textContent = words;
        the("top-rows").replaceChildren(...rows);
    };
});
const open = acting(async () => {
    const it = asked(), what = kind(it);
    fill(it);
    if (what !== undefined) await { vertex: neighborhood, from: walk, top }[what](it);
});

// All rows of the table that is seen, as a file.
const save = acting(async () => {
    const it = asked(), [question, , words] = tables[it.get("top")] ?? tables.out;
    const answer = await ask(`v1/${question}${scope(it)}`, "GET", { Accept: "text/csv" });
    const file = `${words.replace(" ", "-")}-version-${answer.headers.get("misteluk-version")}.csv`;
    const saved = element("a", "", { href: URL.createObjectURL(await answer.blob()), download: file });
    saved.click();
    setTimeout(() => URL.revokeObjectURL(saved.href), 10000);
});

const find = acting(async () => {
    const text = the("vertex").value.trim();
    const names = text === "" ? [] : (await (await ask(`v1/names?top=12&like=${encodeURIComponent(text)}`)).json()).columns.name;
    the("names").replaceChildren(...names.map((name) => {
        const item = element("li", ""), button = element("button", name, { type: "button" });
        button.addEventListener("click", () => { the("vertex").value = name; the("look").requestSubmit(); });
        item.append(button);
        return item;
    }));
});

export const begin = () => {
    const submits = (form, what) => the(form).addEventListener("submit", (event) => { event.preventDefault(); go(given(what)); });
    submits("look", "vertex");
    submits("walk-form", "from");
    submits("top-form", "top");
    the("csv").addEventListener("click", save);
    the("vertex").addEventListener("input", () => { clearTimeout(wait); wait = setTimeout(find, 150); });
    the("expand").addEventListener("click", () => { the("vertex").value = the("expand").value; the("look").requestSubmit(); });
    the("live").addEventListener("change", () => { if (!the("view").hidden) the("look").requestSubmit(); });
    // (the frame, which can do nothing else here, tells how high it is, and which vertex was chosen in it)
    addEventListener("message", (event) => {
        const { height, chosen: name, opened } = event.data ?? {}, high = Number(height) > 0 && height < 100000;
        const next = the("next");
        if (next !== null && event.source === next.contentWindow && high) {
            next.contentWindow.postMessage({ pin: chosen }, "*");
            instead(next, `${Math.ceil(height) + 4}px`);
        }
        if (event.source !== the("view").contentWindow) return;
        if (high) the("view").style.height = `${Math.ceil(height) + 4}px`;
        if (typeof opened === "string") [the("expand").value, the("expand").hidden] = [opened, true];
        if (typeof opened === "string") the("expand").click();
        if (typeof name === "string") {
            chosen = name;
            [the("expand").value, the("expand").textContent, the("expand").hidden] = [name, `Expand ${name}`, name === ""];
        }
    });
    addEventListener("hashchange", open);
};
const followed = refreshing(follow, "live");
let rest = 0, isAt = false;
// The server's last version is this one.
export const know = async (number) => {
    last = number;
    if (isAt || Date.now() < rest) return;
    isAt = true;
    await followed().finally(() => { isAt = false; });
};
