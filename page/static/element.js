// How elements are made. What comes from the program, its names and its output, is only ever set as text.

/** An element with attributes, handlers (`onclick`), data (`data`), styles (`css`) and children; what is null or false is left out. */
export function element(tag, properties = {}, ...children) {
  const made = document.createElement(tag);
  for (const [name, value] of Object.entries(properties)) {
    if (value === null || value === undefined || value === false) continue;
    if (name === "class") made.className = value;
    else if (name.startsWith("on")) made.addEventListener(name.slice(2), value);
    else if (name === "data") Object.assign(made.dataset, value);
    else if (name === "css") for (const [property, setting] of Object.entries(value)) made.style.setProperty(property,
      setting);
    else made.setAttribute(name, value === true ? "" : value);
  }
  made.append(...children.filter(child => child !== null && child !== undefined && child !== false));
  return made;
}

export const byId = id => document.getElementById(id);

/** Makes elements anew; one that the keyboard had led to hands the focus to that with its `data-key`. */
export function keepingFocus(draw) {
  const key = document.querySelector("[data-key]:focus-visible")?.dataset.key;
  draw();
  if (key) [...document.querySelectorAll("[data-key]")].find(each => each.dataset.key === key)?.focus({preventScroll: true});
}

/** Words for a class, where a condition holds. */
export const classes = (...words) => words.filter(Boolean).join(" ");

/** A byte as a sign, or in octal. */
export function signOf(byte) {
  return byte >= 32 && byte < 127 ? String.fromCharCode(byte) : `\\${byte.toString(8).padStart(3, "0")}`;
}
