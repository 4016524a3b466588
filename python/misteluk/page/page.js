"use strict";
(() => {
    const all = (query, root = document) => [...root.querySelectorAll(query)];
    const search = document.getElementById("search"), told = document.getElementById("told");
    const vertices = all(".picture .vertex"), edges = all(".picture .edge");
    const vertexRows = all("#vertices tbody tr"), edgeRows = all("#edges tbody tr");
    const names = vertexRows.map((row) => row.cells[0].textContent.toLowerCase());
    let pinned = null, pointed = null;

    // What is looked at: vertices by their numbers, or one edge.
    const found = () => {
        const query = search.value.trim().toLowerCase();
        const rows = vertexRows.filter((_, at) => names[at].includes(query));
        return query === "" ? null : new Set(rows.map((row) => row.dataset.vertex));
    };
    const isAt = (it, vertex) => it.dataset.from === vertex || it.dataset.to === vertex;

    const show = () => {
        const matches = found(), look = pointed ?? pinned;
        const near = new Set();
        const isLit = (edge) => {
            if (look === null) return matches !== null && matches.has(edge.dataset.from) && matches.has(edge.dataset.to);
            return look.edge === undefined ? isAt(edge, look.vertex) : edge.dataset.edge === look.edge;
        };
        for (const edge of edges) {
            const lit = isLit(edge);
            edge.classList.toggle("lit", lit);
            if (lit) near.add(edge.dataset.from).add(edge.dataset.to);
        }
        for (const vertex of vertices) {
            const number = vertex.dataset.vertex, isFound = matches !== null && matches.has(number);
            const isCore = look !== null && look.vertex === number;
            vertex.classList.toggle("core", isCore);
            vertex.classList.toggle("found", isFound);
            vertex.classList.toggle("lit", isCore || isFound || near.has(number));
        }
        document.body.classList.toggle("focused", look !== null || matches !== null);
        for (const row of vertexRows) {
            row.classList.toggle("out", matches !== null && !matches.has(row.dataset.vertex));
            row.classList.toggle("core", look !== null && look.vertex === row.dataset.vertex);
        }
        for (const row of edgeRows) {
            const isFound = matches === null || matches.has(row.dataset.from) || matches.has(row.dataset.to);
            const isOfPinned = pinned === null || isAt(row, pinned.vertex);
            row.classList.toggle("out", !isFound || !isOfPinned);
            row.classList.toggle("core", look !== null && look.edge === row.dataset.edge);
        }
        told.textContent = matches === null ? "" : `${matches.size} of ${vertexRows.length}`;
    };
    const point = (it) => { pointed = it; show(); };
    // A page that shows this one in a frame is told which vertex is kept, and which is to be opened.
    const nameOf = (vertex) => vertexRows.find((row) => row.dataset.vertex === vertex)?.dataset.name ?? "";
    const say = (what, vertex) => { if (parent !== window) parent.postMessage({ [what]: nameOf(vertex) }, "*"); };
    const pin = (vertex) => {
        pinned = vertex === null || pinned?.vertex === vertex ? null : { vertex };
        say("chosen", pinned?.vertex);
        show();
    };

    // (and may say which one is to be kept, as where this page takes the place of one that is older)
    addEventListener("message", (event) => {
        if (parent === window || event.source !== parent || typeof event.data?.pin !== "string") return;
        const row = vertexRows.find((it) => it.dataset.name === event.data.pin);
        if (row !== undefined && pinned?.vertex !== row.dataset.vertex) pin(row.dataset.vertex);
    });

    for (const it of [...vertices, ...vertexRows]) {
        const vertex = it.dataset.vertex;
        it.addEventListener("mouseenter", () => point({ vertex }));
        it.addEventListener("mouseleave", () => point(null));
        it.addEventListener("click", (event) => { event.stopPropagation(); pin(vertex); });
        it.addEventListener("dblclick", () => say("opened", vertex));
        it.addEventListener("keydown", (event) => {
            if (event.key !== "Enter" && event.key !== " ") return;
            event.preventDefault();
            pin(vertex);
        });
    }
    for (const it of [...edges, ...edgeRows]) {
        it.addEventListener("mouseenter", () => point({ edge: it.dataset.edge }));
        it.addEventListener("mouseleave", () => point(null));
    }
    for (const it of all(".picture")) it.addEventListener("click", () => pin(null));
    search.addEventListener("input", show);
    document.getElementById("large")?.addEventListener("click", (event) => {
        const isLarge = document.body.classList.toggle("large");
        event.currentTarget.setAttribute("aria-pressed", String(isLarge));
    });
    document.addEventListener("keydown", (event) => {
        if (event.key === "Escape") { search.value = ""; pinned = null; point(null); }
    });

    // A name stands within its picture, as wide as its letters may be, also while it is bold: a border would cut it. (How wide
    // they are depends on the window's width.)
    const drawn = all(".picture .name").map((name) => [name, Number(name.getAttribute("x"))]);
    const fit = () => {
        for (const [name, x] of drawn) {
            name.setAttribute("x", x.toFixed(1));
            name.style.fontWeight = "600";
            const box = name.getBBox(), over = box.x + box.width + 2 - name.ownerSVGElement.viewBox.baseVal.width;
            name.style.fontWeight = "";
            const aside = box.x < 2 ? 2 - box.x : over > 0 ? -Math.min(over, box.x - 2) : 0;
            if (aside !== 0) name.setAttribute("x", (x + aside).toFixed(1));
        }
    };
    fit();
    addEventListener("resize", fit);

    // A click on a column's head orders a table by it.
    for (const button of all("th button")) {
        button.addEventListener("click", () => {
            const head = button.closest("th"), body = button.closest("table").tBodies[0], at = Number(button.dataset.column);
            const isDown = head.getAttribute("aria-sort") !== "descending";
            const value = (row) => row.cells[at].dataset.value ?? row.cells[at].textContent;
            const number = (text) => (text === "" ? -Infinity : Number(text));
            const order = (a, b) => {
                const [x, y] = [value(a), value(b)], difference = number(x) - number(y);
                return (isDown ? -1 : 1) * (Number.isNaN(difference) ? x.localeCompare(y) : difference);
            };
            all("th", button.closest("table")).forEach((it) => it.removeAttribute("aria-sort"));
            head.setAttribute("aria-sort", isDown ? "descending" : "ascending");
            body.append(...[...body.rows].sort(order));
        });
    }
    // A page that shows this one in a frame is told how high it is.
    if (parent !== window) {
        new ResizeObserver(() => parent.postMessage({ height: document.body.offsetHeight }, "*")).observe(document.body);
    }
    show();
})();
