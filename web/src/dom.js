// Elements of the page. Text is text: nothing here reads markup.

const SVG = "http://www.w3.org/2000/svg";
/** A window in which the parts of the page stand side by side, as in style.css. */
export const WIDE = "(min-width: 60rem)";

function filled(element, attributes, children) {
    for (const [name, value] of Object.entries(attributes)) {
        if (name.startsWith("on")) {
            element.addEventListener(name.slice(2), value);
        } else if (value !== undefined && value !== false) {
            element.setAttribute(name, value === true ? "" : String(value));
        }
    }
    element.append(...children.flat().filter((child) => child !== undefined && child !== false));
    return element;
}

/**
 * An element. A name with `on` in front is an event's, `undefined` and `false` leave an attribute or a child out.
 * @param {string} tag
 * @param {Record<string, unknown>} [attributes]
 * @param {...unknown} children
 */
export function make(tag, attributes = {}, ...children) {
    return filled(document.createElement(tag), attributes, children);
}

/** The same, of SVG. */
export function draw(tag, attributes = {}, ...children) {
    return filled(document.createElementNS(SVG, tag), attributes, children);
}

/**
 * Does what replaces or disables elements, and gives the focus back to what stands where the element with the focus stood: the one
 * with the same `data-focus`. Without one that can take it, `other` gets it.
 * @param {() => void} replace
 * @param {HTMLElement} other
 */
export function keepFocus(replace, other) {
    const before = document.activeElement, name = before?.dataset.focus;
    replace();
    if (before && before !== document.body && (!before.isConnected || before.disabled)) {
        const found = [...document.querySelectorAll("[data-focus]")].find((it) => it.dataset.focus === name && !it.disabled);
        (found ?? other).focus({ preventScroll: true });
    }
}

/** The element of this ID. */
export const byId = (id) => document.getElementById(id);

/**
 * A time in words: seconds with all digits that count.
 * @param {bigint} time nanoseconds
 */
export function seconds(time) {
    const whole = time / 1_000_000_000n, rest = String(time % 1_000_000_000n).padStart(9, "0").replace(/0+$/, "");
    return `${String(whole).replace(/\B(?=(\d{3})+$)/g, ",")}${rest && `.${rest}`} s`;
}
