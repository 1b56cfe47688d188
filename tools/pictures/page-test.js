// ---- the page's own test, at #selftest: goes through all that can be shown, and writes what it saw as JSON

function seenInPicture() {
  const box = $("picture"), seen = new Set(), again = new Set(), fates = {};
  for (let top = 0; ; top += box.clientHeight) {
    box.scrollTop = top;
    drawPicture(true);
    for (const arrow of svg.querySelectorAll(".msg")) {
      if (!seen.has(arrow.dataset.m)) {
        const fate = arrow.getAttribute("class").match(/fate-(\w+)/)[1];
        fates[fate] = (fates[fate] ?? 0) + 1;
      }
      seen.add(arrow.dataset.m);
    }
    svg.querySelectorAll(".again").forEach(arrow => again.add(`${arrow.dataset.again} ${arrow.querySelector(".tip").getAttribute("d")}`));
    if (top + box.clientHeight >= box.scrollHeight) break;
  }
  return { arrows: seen.size, again: again.size, fates };
}

function seenInTranscript() {
  const box = $("list"), seen = new Set();
  for (let top = 0; ; top += box.clientHeight) {
    box.scrollTop = top;
    drawLines();
    document.querySelectorAll("#lines [data-line]").forEach(entry => seen.add(entry.dataset.line));
    if (top + box.clientHeight >= box.scrollHeight) break;
  }
  return seen.size;
}

function seenAt(step) {
  $("slider").value = step + 1;
  $("slider").dispatchEvent(new Event("input"));
  const states = row => [...row.querySelectorAll(".state")].map(state => state.textContent);
  const rows = [...document.querySelectorAll("#standing tr")].map(row => [row.dataset.node, ...states(row)]);
  const entry = document.querySelector(".entry.now");
  return { told: $("step").textContent, rows, now: entry ? Number(entry.dataset.line) : -1, band: svg.querySelectorAll(".now").length };
}

function seenBySearch(wanted) {
  $("search").value = wanted;
  $("search").dispatchEvent(new Event("input"));
  const count = state.hits.length, first = $("hits").textContent;
  $("next").click();
  const second = $("hits").textContent, lit = document.querySelectorAll("#lines .entry.hit").length;
  $("search").value = "";
  $("search").dispatchEvent(new Event("input"));
  return { count, first, second, lit };
}

// For some messages: their arrow, and what else lights up with it when the line is pointed at.
function seenLit() {
  const found = [];
  for (let id = 0; id < run.lineOf.length; id += Math.max(1, Math.floor(run.lineOf.length / 25))) {
    goToLine(run.lineOf[id]);
    state.pinned = -1;
    const line = document.querySelector(`#lines [data-line="${run.lineOf[id]}"]`);
    line.dispatchEvent(new MouseEvent("mouseover", { bubbles: true }));
    const arrows = [...svg.querySelectorAll(".msg.lit")].map(arrow => Number(arrow.dataset.m));
    found.push(line.classList.contains("lit") && arrows.length === 1 && arrows[0] === id);
    hover(-1);
  }
  return found.every(x => x);
}

function seenWhy() {
  return [...document.querySelectorAll(".cell")].map(cell => {
    cell.click();
    const lines = [...document.querySelectorAll("#why .line")].map(line => Number(line.dataset.line));
    return [cell.className.match(/cell (\w)/)[1], Number(cell.dataset.item), lines];
  });
}

function selfTest() {
  const begin = performance.now(), result = { lines: seenInTranscript(), ...seenInPicture() };
  result.items = document.querySelectorAll(".cell").length;
  result.first = seenAt(0);
  result.middle = seenAt(last >> 1);
  result.last = seenAt(last);
  result.search = seenBySearch("msg ");
  result.lit = seenLit();
  result.why = seenWhy();
  const step = performance.now();
  goTo(last >> 1);
  result.frame = Math.round(performance.now() - step);
  result.time = Math.round(performance.now() - begin);
  const told = document.createElement("pre");
  told.id = "selftest";
  told.textContent = JSON.stringify(result);
  document.body.append(told);
}

