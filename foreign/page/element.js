"use strict";

/* An element with these attributes and contents, texts among them. */
function element(name, attributes, ...contents) {
    const made = document.createElement(name);
    Object.entries(attributes).forEach(([key, value]) => made.setAttribute(key, value));
    made.append(...contents);
    return made;
}
