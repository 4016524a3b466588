// What the page asks the server, and what it says where that fails.
export const the = (name) => document.getElementById(name);
export const number = (it) => it.toLocaleString("en");
export const element = (name, text, more = {}) => Object.assign(document.createElement(name), { textContent: text, ...more });

export const token = () => sessionStorage.getItem("token");
export const ask = async (path, method = "GET", more = {}) => {
    const headers = { ...more, ...token() ? { Authorization: `Bearer ${token()}` } : {} };
    const answer = await fetch(path, { method, headers, cache: "no-store" }).catch(() => {
        throw new Error("The server doesn't answer.");
    });
    if (answer.status === 401) {
        the("entry").hidden = false;
        throw new Error(token() ? "The token is wrong: enter this server's token." : "Enter the token of this server.");
    }
    if (!answer.ok) {
        const told = await answer.json().catch(() => ({ reason: `status ${answer.status}` }));
        const fault = new Error(told.retry_after ? `${told.reason}; again in ${told.retry_after} s` : told.reason);
        throw Object.assign(fault, { status: answer.status });
    }
    return answer;
};

// What the last refresh met, that the held version is lost, why what is looked at doesn't follow the newest version, and what the user's acts met: their faults stay until she acts
// again, whatever is refreshed meanwhile, and the loss until she holds another version.
export const faults = { refresh: "", lost: "", live: "", acts: [] };
export const tell = () => {
    const text = [...new Set([faults.refresh, faults.lost, faults.live, ...faults.acts])].filter((it) => it !== "").join("\n");
    the("fault").hidden = text === "";
    if (the("fault").textContent !== text) the("fault").textContent = text;
};
export const refreshing = (act, what = "refresh") => async () => {
    faults[what] = await act().then(() => "", (fault) => fault.message);
    tell();
};
export const acting = (act) => async (event) => {
    event?.preventDefault();
    faults.acts = [];
    tell();
    await act(event).catch((fault) => { faults.acts.push(fault.message); tell(); });
};
