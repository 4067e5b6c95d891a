"use strict";
// Marks in the picture and the tables what was chosen; what it marks stands in the page already.
(() => {
    const picture = document.getElementById("picture");
    const nodes = [...document.querySelectorAll(".at")];
    const links = [...picture.querySelectorAll(".link")];
    const entries = [...document.querySelectorAll(".entries tr[data-nodes]")];
    const buttons = [...document.querySelectorAll("input[name=entry]")];
    const full = document.getElementById("full");
    const boxes = [...picture.querySelectorAll(".node")];
    let picked = null;

    const nodesOf = row => new Set(row ? row.dataset.nodes.split(" ").filter(Boolean) : []);

    function markEntry() {
        const button = buttons.find(button => button.checked);
        const marked = nodesOf(button && button.closest("tr"));
        for (const node of nodes) {
            const is = marked.has(node.dataset.node);
            node.classList.toggle("marked", is);
            const words = node.querySelector(".chosen");
            if (words) words.textContent = is ? button.value : "";
        }
        say();
    }

    function markNode() {
        picture.classList.toggle("choosing", picked !== null);
        for (const node of nodes) node.classList.toggle("picked", node.dataset.node === picked);
        for (const box of boxes) box.setAttribute("aria-pressed", box.dataset.node === picked);
        for (const link of links) {
            link.classList.toggle("near", link.dataset.from === picked || link.dataset.to === picked);
        }
        for (const row of entries) {
            const here = nodesOf(row).has(picked);
            row.classList.toggle("here", here);
            row.lastElementChild.dataset.here = here ? "node " + picked : "";
        }
        say();
    }

    function say() {
        const button = buttons.find(button => button.checked);
        const said = [];
        if (button && button.value) {
            const at = [...nodesOf(button.closest("tr"))];
            const where = at.length === 0 ? " nowhere" : (at.length === 1 ? ": node " : ": nodes ") + at.join(" ");
            said.push(button.value + where);
        }
        if (picked !== null) said.push("node " + picked + " is chosen");
        document.getElementById("choice").textContent = said.join("; ");
    }

    function pick(number) {
        picked = picked === number ? null : number;
        markNode();
    }

    // Moves the picture in its frame, not the page, to the chosen node or the first to be seen.
    function show() {
        const frame = picture.parentElement;
        const outer = frame.getBoundingClientRect();
        const inner = boxes[picked ?? picture.dataset.first].getBoundingClientRect();
        frame.scrollBy({
            left: (inner.left + inner.right - outer.left - outer.right) / 2,
            top: (inner.top + inner.bottom - outer.top - outer.bottom) / 2,
            behavior: "instant",
        });
    }

    // Of all nodes one is reached by the tab key, the others from there by the arrow keys.
    function reach(number, focus) {
        boxes.forEach((box, at) => box.setAttribute("tabindex", at === number ? "0" : "-1"));
        if (focus) boxes[number].focus();
    }

    function press(event, at) {
        if (event.altKey || event.ctrlKey || event.metaKey) return;
        const steps = { ArrowRight: at + 1, ArrowDown: at + 1, ArrowLeft: at - 1, ArrowUp: at - 1, Home: 0, End: -1 };
        if (event.key === "Enter" || event.key === " ") pick(String(at));
        else if (event.key in steps) reach((steps[event.key] + boxes.length) % boxes.length, true);
        else return;
        event.preventDefault();
    }

    function hide(box) {
        for (const link of links) {
            if (link.classList.contains("axis" + box.dataset.axis)) link.classList.toggle("hidden", !box.checked);
        }
    }

    boxes.forEach((box, at) => {
        const holds = box.classList.contains("holds") ? ", root holds" : "";
        box.setAttribute("role", "button");
        box.setAttribute("aria-label", "node " + at + holds);
        box.addEventListener("click", () => {
            reach(at, false);
            pick(String(at));
        });
        box.addEventListener("keydown", event => press(event, at));
    });
    document.addEventListener("keydown", event => {
        if (event.key !== "Escape") return;
        for (const button of buttons) button.checked = button.value === "";
        picked = null;
        markEntry();
        markNode();
    });
    for (const button of buttons) button.addEventListener("change", markEntry);
    for (const box of document.querySelectorAll("[data-axis]")) {
        box.addEventListener("change", () => hide(box));
        hide(box);
    }
    full.addEventListener("change", show);
    document.documentElement.classList.add("scripted");
    reach(Number(picture.dataset.first), false);
    markNode();
    markEntry();
    show();
})();
