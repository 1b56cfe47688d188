// ---- what the page listens to

function messageOf(target) {
  const arrow = target.closest?.(".msg, .again");
  if (arrow) return Number(arrow.dataset.m ?? arrow.dataset.again);
  const entry = target.closest?.("[data-line]");
  return entry ? run.message[entry.dataset.line] : -1;
}

function listen() {
  $("picture").addEventListener("scroll", () => requestAnimationFrame(() => drawPicture(false)));
  $("list").addEventListener("scroll", () => requestAnimationFrame(drawLines));
  addEventListener("resize", () => { drawPicture(true); drawLines(); });
  document.addEventListener("mouseover", event => hover(messageOf(event.target)));
  $("room").addEventListener("click", clickPicture);
  $("lines").addEventListener("click", clickLine);
  $("why").addEventListener("click", event => {
    const line = event.target.closest("[data-line]");
    if (line) goToLine(Number(line.dataset.line));
  });
  $("close").addEventListener("click", closeWhy);
  $("tapes").addEventListener("click", event => {
    const cell = event.target.closest("[data-item]");
    if (cell) showWhy(Number(cell.dataset.item));
  });
  $("slider").addEventListener("input", () => goTo($("slider").value - 1));
  $("back").addEventListener("click", () => goTo(state.step - 1));
  $("forth").addEventListener("click", () => goTo(state.step + 1));
  $("smaller").addEventListener("click", () => zoomTo(state.zoom / 1.2));
  $("larger").addEventListener("click", () => zoomTo(state.zoom * 1.2));
  $("picture").addEventListener("wheel", event => {
    if (!event.ctrlKey) return;
    event.preventDefault();
    zoomTo(state.zoom * (event.deltaY > 0 ? 1 / 1.1 : 1.1));
  }, { passive: false });
  $("sign").addEventListener("click", () => { $("signs").hidden = !$("signs").hidden; });
  $("search").addEventListener("input", search);
  $("next").addEventListener("click", () => hitAfter(1));
  $("previous").addEventListener("click", () => hitAfter(-1));
  document.addEventListener("keydown", press);
}

function clickPicture(event) {
  const item = event.target.closest(".item");
  if (item) return showWhy(Number(item.dataset.item));
  const message = messageOf(event.target);
  if (message >= 0) return goToLine(run.lineOf[message]);
  state.pinned = -1;
  goTo(Math.floor((event.clientY - $("room").getBoundingClientRect().top) / (run.row * state.zoom)), "picture");
}

function clickLine(event) {
  const entry = event.target.closest(".entry");
  if (!entry) return;
  if (entry.dataset.event) return goTo(run.firstStep[entry.dataset.event], "lines");
  const item = run.items.findIndex(item => item.line === Number(entry.dataset.line));
  if (item >= 0) showWhy(item); else goToLine(Number(entry.dataset.line));
}

function press(event) {
  if (event.key === "Escape") {
    closeWhy();
    $("signs").hidden = true;
  }
  if (event.target === $("search")) {
    if (event.key === "Enter") hitAfter(event.shiftKey ? -1 : 1);
    return;
  }
  if (event.target === $("slider")) return;
  const by = { ArrowLeft: -1, ArrowUp: -1, ArrowRight: 1, ArrowDown: 1 }[event.key];
  if (by) { event.preventDefault(); goTo(state.step + by); }
}

// ---- the start

document.body.insertAdjacentHTML("afterbegin", `<svg width="0" height="0" style="position:absolute">${run.defs}</svg>`);
for (const part of [svg, gutter]) {
  part.classList.add("run");
  $("room").append(part);
}
$("slider").max = last + 1;
$("notes").textContent = run.notes.join("\n");
$("signs").innerHTML = run.signs;
drawTapes();
state.zoom = Math.min(1, Math.max(0.78, ($("picture").clientWidth - 18) / run.width));
sizePicture();
listen();
goTo(0);
if (location.hash === "#selftest") selfTest();
const asked = location.hash.match(/^#(step|item)=(\d+)$/);
if (asked) asked[1] === "step" ? goTo(asked[2] - 1) : showWhy(Number(asked[2]));
