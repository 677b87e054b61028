// Tables that sort by a click on a head, and filters for those that have some.

const keyOf = (row, column) => {
  const cell = row.cells[column];
  if (!cell) return "";
  return cell.dataset.key !== undefined ? cell.dataset.key : cell.textContent.trim();
};

// Numbers by their size, without their commas, and other texts by their letters and the numbers in them; what is empty is last.
const compare = (one, other, direction) => {
  const blank = (key) => key === "" || key === "–" || key === "None";
  if (blank(one) || blank(other)) return blank(one) - blank(other);
  const [first, second] = [one, other].map((key) => Number(key.replaceAll(",", "")));
  const order = Number.isNaN(first) || Number.isNaN(second) ? one.localeCompare(other, "en", { numeric: true }) : first - second;
  return direction * order;
};

const sort = (table, head) => {
  const isFalling = head.getAttribute("aria-sort") === "ascending";
  for (const other of table.tHead.rows[0].cells) other.removeAttribute("aria-sort");
  head.setAttribute("aria-sort", isFalling ? "descending" : "ascending");
  const column = head.cellIndex;
  const rows = [...table.tBodies[0].rows].map((row) => [keyOf(row, column), row]);
  rows.sort((one, other) => compare(one[0], other[0], isFalling ? -1 : 1));
  table.tBodies[0].append(...rows.map((it) => it[1]));
};

for (const button of document.querySelectorAll("thead th button")) {
  button.addEventListener("click", () => sort(button.closest("table"), button.closest("th")));
}

// A row is seen that has the text, and whose mark is the one that is chosen.
for (const form of document.querySelectorAll("form.filters")) {
  const table = document.getElementById(form.dataset.table);
  const rows = [...table.tBodies[0].rows];
  const count = form.querySelector("output");
  const filter = () => {
    const words = form.elements.text.value.toLowerCase().split(/\s+/).filter(Boolean);
    const mark = form.elements.mark.value;
    let seen = 0;
    for (const row of rows) {
      const text = row.textContent.toLowerCase();
      const marks = (row.dataset.marks || "").split(" ");
      row.hidden = !(words.every((word) => text.includes(word)) && (mark === "" || marks.includes(mark)));
      seen += row.hidden ? 0 : 1;
    }
    count.textContent = `${seen.toLocaleString("en")} of ${rows.length.toLocaleString("en")} drives`;
  };
  form.addEventListener("input", filter);
  form.addEventListener("submit", (event) => event.preventDefault());
  filter();
}
