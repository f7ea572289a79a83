// Elements without markup: each text is set as text, so nothing that a file says becomes part of the page.

export type Child = Node|string|null|false;
type Attributes = Record<string, string|number|boolean|((event: Event) => void)|null>;

function fill<E extends Element>(element: E, attributes: Attributes, children: Child[]): E {
    for (const [name, value] of Object.entries(attributes)) {
        if (typeof value === "function") element.addEventListener(name, value);
        else if (value === true) element.setAttribute(name, "");
        else if (value !== false && value !== null) element.setAttribute(name, String(value));
    }
    for (const child of children)
        if (child) element.append(child);
    return element;
}

export function make<K extends keyof HTMLElementTagNameMap>(
    tag: K, attributes: Attributes = {}, ...children: Child[]): HTMLElementTagNameMap[K] {
    return fill(document.createElement(tag), attributes, children);
}

export function svg<K extends keyof SVGElementTagNameMap>(
    tag: K, attributes: Attributes = {}, ...children: Child[]): SVGElementTagNameMap[K] {
    return fill(document.createElementNS("http://www.w3.org/2000/svg", tag), attributes, children);
}

export function at<E extends HTMLElement = HTMLElement>(id: string): E {
    const found = document.getElementById(id);
    if (!found) throw new Error(`there is no element ${id}`);
    return found as E;
}

export function show(id: string, ...children: Child[]): void {
    at(id).replaceChildren(...children.filter((child): child is Node|string => !!child));
}

/** Sets a text where it changed. */
export function say(id: string, text: string): void {
    const element = at(id);
    if (element.textContent !== text) element.textContent = text;
}

export function row(...cells: Child[]): HTMLTableRowElement {
    return make("tr", {}, ...cells.map(cell => make("td", {}, cell)));
}

export function table(heads: string[], rows: HTMLTableRowElement[]): HTMLTableElement {
    for (const line of rows) [...line.cells].forEach((cell, n) => cell.setAttribute("data-head", heads[n] ?? ""));
    return make("table", {},
        make("thead", {}, make("tr", {}, ...heads.map(head => make("th", { scope: "col" }, head)))),
        make("tbody", {}, ...rows));
}

/** A row that acts where it is clicked, or where Enter is pressed on it. */
export function pressed(line: HTMLTableRowElement, act: () => void): HTMLTableRowElement {
    line.tabIndex = 0;
    line.addEventListener("click", act);
    line.addEventListener("keydown", key => {
        if (key.key === "Enter") act();
    });
    return line;
}

export function save(name: string, data: BlobPart, type: string): void {
    const link = make("a", { href: URL.createObjectURL(new Blob([data], { type })), download: name });
    link.click();
    setTimeout(() => URL.revokeObjectURL(link.href), 1000);
}
