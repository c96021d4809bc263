
"use strict";
// Sorts and filters the rows. Without this script the page shows every run, in its first order.
(() => {
  const table = document.querySelector("table"), body = table.tBodies[0];
  const heads = Array.from(table.tHead.rows[0].cells), counts = Array.from(document.querySelectorAll("#counts li"));
  const states = counts.map(item => item.dataset.state), chosen = new Set();
  const first = Array.from(body.rows, row => ({row, state: row.className, keys: []}));
  let runs = first.slice();

  const plain = text => text.normalize("NFKD").replace(/\p{M}/gu, "").toLowerCase();
  // As people count: 10 after 9. A number is put as its length and its digits, so that no number is too large.
  const natural = text => plain(text).replace(/[0-9]+/g, digits => {
    const number = digits.replace(/^0+/, "");
    return String(number.length).padStart(6, "0") + number;
  });
  const make = (name, text, parent) => {
    const made = document.createElement(name);
    if (name === "button") made.type = "button";
    made.textContent = text;
    parent.append(made);
    return made;
  };

  const key = (run, column) => {
    if (run.keys[column] === undefined) {
      run.keys[column] = column === 0 ? String(states.indexOf(run.state)).padStart(3, "0")
        : natural(run.row.cells[column].textContent);
    }
    return run.keys[column];
  };
  // The sort is stable; a run without a value comes last both ways.
  const sort = (column, way) => runs.sort((one, other) => {
    const a = key(one, column), b = key(other, column);
    if (a === b) return 0;
    if (a === "" || b === "") return a === "" ? 1 : -1;
    return a < b ? -way : way;
  });
  const order = (column, way) => {
    runs = column === null ? first.slice() : sort(column, way);
    heads.forEach((head, i) => head.setAttribute("aria-sort", i !== column ? "none" : way > 0 ? "ascending" : "descending"));
    const parts = document.createDocumentFragment();
    for (const run of runs) parts.append(run.row);
    body.append(parts);
  };

  const has = (run, word) => {
    if (run.text === undefined) run.text = plain(Array.from(run.row.cells, cell => cell.textContent).join("\n"));
    return run.text.includes(word);
  };
  const filter = () => {
    const words = plain(input.value).split(/\s+/).filter(Boolean);
    let n = 0;
    for (const run of first) {
      const fits = (!chosen.size || chosen.has(run.state)) && words.every(word => has(run, word));
      n += fits;
      if (run.row.hidden === fits) run.row.hidden = !fits;
    }
    const only = [Array.from(chosen).join(" or "), words.length ? "with " + input.value.trim() : ""].filter(Boolean).join(", ");
    shown.classList.toggle("all", !only);
    shown.textContent = `${n} of ${first.length} runs` + (only && ": " + only);
  };
  const choose = (item, on) => {
    chosen[on ? "add" : "delete"](item.dataset.state);
    item.classList.toggle("chosen", on);
    item.querySelector("button").setAttribute("aria-pressed", on);
  };

  const tools = document.createElement("div");
  tools.id = "tools";
  const label = make("label", "Filter", tools), input = make("input", "", label);
  input.type = "search";
  input.autocomplete = "off";
  input.placeholder = "words in any column; for states click above";
  input.addEventListener("input", filter);
  const shown = make("p", "", tools);
  shown.id = "shown";
  shown.setAttribute("role", "status");
  make("button", "Show all, in first order", tools).addEventListener("click", () => {
    input.value = "";
    counts.forEach(item => choose(item, false));
    order(null);
    filter();
  });
  table.before(tools);

  for (const item of counts) {
    const whole = Array.from(item.childNodes), button = make("button", "", item);
    button.append(...whole);
    item.classList.add("live");
    button.addEventListener("click", () => {
      choose(item, !chosen.has(item.dataset.state));
      filter();
    });
    choose(item, false);
  }
  // On a screen a head is its button, on paper its text: a browser prints a button once, not at the top of each page.
  heads.forEach((head, i) => {
    const name = head.textContent;
    head.textContent = "";
    head.setAttribute("aria-sort", "none");
    make("span", name, head);
    make("button", name, head).addEventListener("click", () =>
      order(i, head.getAttribute("aria-sort") === "ascending" ? -1 : 1));
  });
  filter();
})();
