"use strict";
(() => {
    const tree = document.getElementById("tree");
    const panel = document.getElementById("chosen");
    let chosen = null;

    const make = (name, text, ...inside) => {
        const element = document.createElement(name);
        element.append(text, ...inside);
        return element;
    };

    // Unfolds what hides an element. The heading of something folded isn't hidden by it.
    const reveal = (element) => {
        for (let inside = element; inside !== null; inside = inside.parentElement) {
            const parent = inside.parentElement;
            if (parent !== null && parent.tagName === "DETAILS" && inside.tagName !== "SUMMARY") {
                parent.open = true;
            }
        }
        if (element.tagName === "DETAILS") {
            element.open = true;
        }
    };

    const used = (step) => [["P", step.dataset.p], ["Q", step.dataset.q]]
        .filter(([, id]) => id !== undefined)
        .map(([field, id]) => [field, document.getElementById(id)]);

    const leave = () => {
        if (chosen === null) {
            return;
        }
        used(chosen).forEach(([, line]) => line.classList.remove("used-p", "used-q"));
        chosen.classList.remove("chosen");
        chosen.removeAttribute("aria-current");
        chosen = null;
        panel.hidden = true;
    };

    const link = (element, text) => {
        const anchor = make("a", text);
        anchor.href = `#${element.id}`;
        return anchor;
    };

    const closer = () => {
        const button = make("button", "close (Esc)");
        button.addEventListener("click", leave);
        return button;
    };

    // What is said of a step at the foot of the window.
    const describe = (step) => {
        const rule = document.getElementById(`rule${step.dataset.rule}`);
        const says = rule === null ? "there is no such rule" : rule.lastElementChild.textContent;
        const lines = used(step)
            .map(([field, line]) => make("div", `${field}: `, link(line, line.textContent)));
        const missing = [...step.querySelectorAll(".missing")].map((line) => make("div", line.textContent));
        const named = link(step, step.querySelector(".named").textContent);
        panel.replaceChildren(closer(), make("div", named), make("div", `The rule: ${says}`), ...lines, ...missing);
        panel.hidden = false;
    };

    const choose = (step) => {
        leave();
        chosen = step;
        step.classList.add("chosen");
        step.setAttribute("aria-current", "true");
        for (const [field, line] of used(step)) {
            line.classList.add(`used-${field.toLowerCase()}`);
            reveal(line);
        }
        reveal(step);
        describe(step);
        tree.querySelector(".step[tabindex='0']")?.setAttribute("tabindex", "-1");
        step.tabIndex = 0;
        step.focus({ preventScroll: true });
        step.scrollIntoView({ block: "nearest", inline: "nearest" });
    };

    const chooseNumber = (number) => {
        const step = document.getElementById(`s${number}`);
        if (step !== null && step.classList.contains("step")) {
            choose(step);
        }
    };

    const moves = { ArrowDown: 1, j: 1, ArrowUp: -1, k: -1, Enter: 0, " ": 0 };

    const press = (event) => {
        if (event.ctrlKey || event.altKey || event.metaKey) {
            return;
        }
        if (event.key === "Escape") {
            leave();
        } else if (event.key in moves && event.target.classList.contains("step")) {
            event.preventDefault();
            chooseNumber(Number(event.target.id.slice(1)) + moves[event.key]);
        }
    };

    const click = (event) => {
        const anchor = event.target.closest("a[href^='#']");
        const step = event.target.closest(".step");
        if (anchor !== null) {
            reveal(document.getElementById(anchor.getAttribute("href").slice(1)));
        } else if (step !== null && getSelection().isCollapsed) {
            choose(step);
        }
    };

    const folding = (text, open) => {
        const button = make("button", text);
        button.addEventListener("click", () => {
            tree.querySelectorAll("details").forEach((details) => { details.open = open; });
            const stop = tree.querySelector(".step[tabindex='0']");
            if (stop !== null && stop.closest("details:not([open])") !== null) {
                stop.tabIndex = -1;
                tree.querySelector(".step").tabIndex = 0;
            }
        });
        return button;
    };

    // Scrolls the tree, but not the page, which begins with the finding.
    const showFault = () => {
        const fault = tree.querySelector(".fault");
        if (fault === null) {
            return;
        }
        reveal(fault);
        const [inside, outside] = [fault.getBoundingClientRect(), tree.getBoundingClientRect()];
        tree.scrollBy(inside.left - outside.left - 100, inside.top - outside.top - 150);
    };

    const begin = () => {
        const hint = make("span", "Choose a step to see its P and Q; the arrow keys go on from it.");
        hint.className = "note";
        const bar = make("div", folding("unfold all", true), folding("fold all", false), hint);
        bar.id = "folding";
        tree.before(bar);
        tree.classList.add("choosable");
        tree.querySelectorAll(".step").forEach((step) => { step.tabIndex = -1; });
        const first = tree.querySelector(".step");
        if (first !== null) {
            first.tabIndex = 0;
        }
        document.addEventListener("click", click);
        document.addEventListener("keydown", press);
        showFault();
    };

    begin();
})();
