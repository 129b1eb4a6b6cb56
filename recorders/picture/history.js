// The page of a history: for each window lanes of seats, bars of calls, and the marks of a breach.
const LANE = 34;
const BAR = 22;
const HEAD = 44;
const FOOT = 26;
const view = byId('view');
const svg = byId('drawing');
let shown = null;        // the window that is drawn
let scale = 16;          // pixels of an event
let bars = [];           // by call: {call, group, box, over, text}
let joined = new Map();  // the name of a put to its calls
let pinned = null;
let at = 0;  // the mark that was gone to

const lanesTop = () => HEAD;
const width = () => (shown.columns + 2) * scale;
const height = () => HEAD + shown.lanes.length * LANE + FOOT;
const x = (column) => (column + 1.5) * scale;

function patterns() {
  const defs = drawn('defs');
  const hatch =
      drawn('pattern', {id: 'hatch', width: 6, height: 6, patternUnits: 'userSpaceOnUse'});
  hatch.append(drawn('path', {d: 'M0 6L6 0M-1 1L1 -1M5 7L7 5', class: 'hatch'}));
  const arrow = drawn('marker', {
    id: 'arrow',
    viewBox: '0 0 8 8',
    refX: 7,
    refY: 4,
    markerWidth: 7,
    markerHeight: 7,
    orient: 'auto',
  });
  arrow.append(drawn('path', {d: 'M0 0L8 4L0 8z', class: 'head'}));
  defs.append(hatch, arrow);
  return defs;
}

function barOf(call, index) {
  const group = drawn('g', {
    class: `bar ${call.kind} ${call.reply} ${call.open ? 'open' : ''}`,
    'data-call': index,
    'data-from': call.from,
    'data-to': call.to,
  });
  const box = drawn('path', {class: 'box'});
  const over = drawn('path', {class: 'over'});
  const text = drawn('text', {}, call.label);
  group.append(drawn('title', {}, call.detail), box, over, text);
  return {call, group, box, over, text};
}

function draw(index) {
  shown = data.windows[index];
  document.body.dataset.window = index;
  pinned = null;
  at = 0;
  for (const button of document.querySelectorAll('[data-show]'))
    button.setAttribute('aria-pressed', String(Number(button.dataset.show) === index));
  byId('where').textContent = shown.where;
  const names = byId('lanes');
  names.replaceChildren(...shown.lanes.map((lane) => {
    const row = made('div', {class: 'lane', title: lane.detail});
    row.append(made('b', {}, lane.name), made('span', {}, lane.detail));
    return row;
  }));
  svg.replaceChildren(patterns());
  const back = drawn('g', {id: 'back'});
  shown.lanes.forEach((_, i) => back.append(drawn('rect', {
    class: `stripe ${i % 2 ? 'odd' : ''}`,
    x: 0,
    y: lanesTop() + i * LANE,
    height: LANE,
  })));
  shown.gaps.forEach(
      () => back.append(drawn('rect', {class: 'gap'}), drawn('text', {class: 'gap'})));
  bars = shown.calls.map(barOf);
  joined = new Map();
  bars.forEach((bar, i) => {
    if (!bar.call.name) return;
    joined.set(bar.call.name, [...(joined.get(bar.call.name) || []), i]);
  });
  const all = drawn('g', {id: 'bars'});
  all.append(...bars.map((bar) => bar.group));
  const marks = drawn('g', {id: 'marks'});
  shown.marks.forEach((mark, i) => {
    const group = drawn('g', {
      class: `mark ${i ? 'other' : 'breach'}`,
      'data-place': mark.place,
      'data-rank': mark.rank,
      'data-column': mark.column,
      'data-lane': mark.lane,
    });
    group.append(
        drawn('title', {}, mark.words),
        drawn('line', {}),
        drawn('path', {class: 'edge'}),
        drawn('circle', {r: 10}),
        drawn('text', {}, String(i + 1)),
    );
    marks.append(group);
  });
  svg.append(back, drawn('g', {id: 'ticks'}), all, drawn('g', {id: 'joins'}), marks);
  const list = byId('marked');
  list.replaceChildren(...shown.marks.map((mark, i) => {
    const item = made('li');
    const button = made('button', {'data-mark': i, type: 'button'}, mark.words);
    button.addEventListener('click', () => goTo(i));
    item.append(button);
    return item;
  }));
  const first = shown.marks.length ? shown.marks[0].column : shown.centre;
  const least =
      shown.marks.reduce((most, mark) => Math.max(most, Math.abs(mark.column - first)), 10);
  scale = Math.min(
      60,
      Math.max(
          24,
          Math.max(view.clientWidth / (2.6 * least + 6), view.clientWidth / (shown.columns + 2))));
  lay();
  centre(first);
  tell(null);
  table();
}

// A bar's outline: a put has corners, a get is round; an open side has no edge.
function outline(call, from, to) {
  const top = lanesTop() + call.lane * LANE + (LANE - BAR) / 2;
  const r = call.kind === 'get' ? Math.min(BAR / 2, (to - from) / 2) : 2;
  const right = call.open ?
      `L${to} ${top}m0 ${BAR}` :
      `L${to - r} ${top}q${r} 0 ${r} ${r}L${to} ${top + BAR - r}q0 ${r} ${- r} ${r}`;
  const left = call.since ?
      `L${from} ${top + BAR}m0 ${- BAR}` :
      `L${from + r} ${top + BAR}q${- r} 0 ${- r} ${- r}L${from} ${top + r}q0 ${- r} ${r} ${- r}`;
  return `M${call.since ? from : from + r} ${top}${right}${left}`;
}

function lay() {
  set(svg, {width: width(), height: height()});
  for (const stripe of svg.querySelectorAll('rect.stripe')) set(stripe, {width: width()});
  const gaps = [...svg.querySelectorAll('rect.gap')];
  const words = [...svg.querySelectorAll('text.gap')];
  shown.gaps.forEach((gap, i) => {
    set(gaps[i], {
      x: x(gap.from - 0.5),
      y: HEAD - 6,
      width: x(gap.to) - x(gap.from),
      height: height() - HEAD
    });
    const px = x((gap.from + gap.to) / 2 - 0.5), py = HEAD + (shown.lanes.length * LANE) / 2;
    const isNarrow = x(gap.to) - x(gap.from) < 7 * gap.count.length + 30;
    set(words[i], {x: px, y: py + 4, transform: isNarrow ? `rotate(-90 ${px} ${py})` : ''});
    words[i].textContent = `… ${gap.count} …`;
  });
  for (const {call, box, over, text} of bars) {
    const from = x(call.from), to = Math.max(x(call.to), x(call.from) + 3);
    const path = outline(call, from, to);
    set(box, {d: path});
    set(over, {d: path});
    set(text, {x: (from + to) / 2, y: lanesTop() + call.lane * LANE + LANE / 2 + 4});
    const room = (to - from) / 7.2;
    text.textContent = room >= call.label.length ? call.label :
        room >= call.short.length                ? call.short :
                                                   '';
  }
  keepInSight();
  const lanes = new Map();
  [...svg.querySelectorAll('g.mark')].forEach((group, i) => {
    const mark = shown.marks[i];
    const px = x(mark.column);
    const y = lanesTop() + mark.lane * LANE + LANE / 2;
    const [, line, edge, circle, text] = group.children;
    set(line, {x1: px, x2: px, y1: 24, y2: height() - FOOT});
    set(edge, {
      d: `M${px - 5} ${y - LANE / 2 + 1}h10M${px - 5} ${y + LANE / 2 - 1}h10M${px} ${
          y - LANE / 2 + 1}v${LANE - 2}`
    });
    // Two marks that stand close have their numbers above each other.
    const near = Math.round(px / 24);
    const step = [near - 1, near, near + 1].some((k) => lanes.has(k)) ? 21 : 0;
    if (!step) lanes.set(near, true);
    set(circle, {cx: px, cy: 12 + step});
    set(text, {x: px, y: 16 + step});
  });
  const ticks = byId('ticks');
  ticks.replaceChildren();
  const step =
      [1, 2, 5, 10, 20, 50, 100, 200, 500, 1000, 2000, 5000].find((it) => it * scale >= 70) ||
      10000;
  for (const {at: column, first, last} of shown.stretches)
    for (let rank = Math.ceil(first / step) * step; rank <= last; rank += step) {
      const px = x(column + rank - first);
      ticks.append(
          drawn('line', {x1: px, x2: px, y1: HEAD, y2: height() - FOOT + 5}),
          drawn('text', {x: px, y: height() - 6}, String(rank)),
      );
    }
  join(pinned);
}

// The words of a bar that is wider than what is seen of it stand in the middle of that.
function keepInSight() {
  const left = view.scrollLeft, right = left + view.clientWidth;
  for (const {call, text} of bars) {
    const from = x(call.from), to = x(call.to);
    if (to - from < view.clientWidth / 3 || from > right || to < left) continue;
    set(text, {x: (Math.max(from, left) + Math.min(to, right)) / 2});
  }
}

function centre(column) {
  view.scrollLeft = x(column) - view.clientWidth / 2;
}

function goTo(index) {
  if (!shown.marks.length) return;
  at = (index + shown.marks.length) % shown.marks.length;
  centre(shown.marks[at].column);
  const call = shown.marks[at].call;
  pin(call === null ? null : call);
}

function zoom(factor, px = view.clientWidth / 2) {
  const column = (view.scrollLeft + px) / scale;
  const most = 200000 / (shown.columns + 2);
  scale = Math.min(
      most, 60, Math.max(Math.min(1, view.clientWidth / (shown.columns + 2)), scale * factor));
  lay();
  view.scrollLeft = column * scale - px;
}

function fit() {
  scale = Math.max(0.2, view.clientWidth / (shown.columns + 2));
  lay();
  view.scrollLeft = 0;
}

// Joins a put with its gets, or a get with its put.
function join(index) {
  const joins = byId('joins');
  joins.replaceChildren();
  for (const {group} of bars) group.classList.remove('pointed', 'partner');
  if (index === null) return;
  bars[index].group.classList.add('pointed');
  const all = joined.get(bars[index].call.name) || [];
  // Where the put isn't in the window, two gets of it are joined with each other.
  const put = all.find((i) => bars[i].call.kind === 'put') ?? index;
  for (const other of all) {
    if (other !== index) bars[other].group.classList.add('partner');
    if (other === put) continue;
    const a = bars[put].call, b = bars[other].call;
    const middle = (call) => lanesTop() + call.lane * LANE + LANE / 2;
    const down = middle(b) >= middle(a) ? BAR / 2 : -BAR / 2;
    const y1 = middle(a) + down, y2 = middle(b) - down;
    const x1 = (x(a.from) + x(a.to)) / 2, x2 = (x(b.from) + x(b.to)) / 2;
    const bend = a.lane === b.lane ? `C${x1} ${y1 + 26} ${x2} ${y1 + 26} ${x2} ${y1}` :
                                     `C${x1} ${(y1 + y2) / 2} ${x2} ${(y1 + y2) / 2} ${x2} ${y2}`;
    joins.append(
        drawn('path', {d: `M${x1} ${y1}${bend}`, 'marker-end': 'url(#arrow)', class: 'join'}));
  }
}

function tell(index) {
  if (index === null) {
    byId('told').textContent =
        'Point at a bar: its call is told here, and a put is joined with its get.';
    return;
  }
  const {call} = bars[index];
  const others = (joined.get(call.name) || []).filter((i) => i !== index);
  const partner = !call.name ? '' :
      others.length ? ` Joined with: ${others.map((i) => bars[i].call.title).join('; ')}.` :
                      ` ${call.kind === 'put' ? 'A get of it' : 'Its put'} isn't in this window.`;
  byId('told').textContent = call.detail + partner;
}

function pin(index) {
  pinned = index;
  join(index);
  tell(index);
}

function walk(step) {
  const order = bars.length;
  if (!order) return;
  const next = pinned === null ? (step > 0 ? 0 : order - 1) : (pinned + step + order) % order;
  pin(next);
  centre(bars[next].call.from);
}

function table() {
  const body = byId('calls');
  body.replaceChildren();
  const details = byId('table');
  const fill = () => {
    if (!details.open || body.children.length) return;
    for (const {call} of bars) {
      const row = made('tr');
      row.append(
          made('td', {}, shown.lanes[call.lane].name), made('td', {}, call.title),
          made('td', {}, call.detail));
      body.append(row);
    }
  };
  details.ontoggle = fill;
  fill();
}

const barAt = (event) => {
  const group = event.target.closest && event.target.closest('g.bar');
  return group ? Number(group.dataset.call) : null;
};
svg.addEventListener('pointerover', (event) => {
  const index = barAt(event);
  if (index === null) return;
  join(index);
  tell(index);
});
svg.addEventListener('pointerout', () => {
  join(pinned);
  tell(pinned);
});

view.addEventListener('scroll', keepInSight);

let drag = null;
view.addEventListener('pointerdown', (event) => {
  drag = {from: event.clientX, left: view.scrollLeft, moved: false};
});
window.addEventListener('pointermove', (event) => {
  if (!drag) return;
  if (Math.abs(event.clientX - drag.from) > 3) drag.moved = true;
  view.scrollLeft = drag.left - (event.clientX - drag.from);
});
window.addEventListener('pointerup', (event) => {
  if (drag && !drag.moved && svg.contains(event.target)) pin(barAt(event));
  drag = null;
});
view.addEventListener('wheel', (event) => {
  if (!event.ctrlKey) return;
  zoom(event.deltaY < 0 ? 1.2 : 1 / 1.2, event.clientX - view.getBoundingClientRect().left);
  event.preventDefault();
}, {passive: false});

onKeys({
  ArrowLeft: () => {
    view.scrollLeft -= view.clientWidth / 4;
  },
  ArrowRight: () => {
    view.scrollLeft += view.clientWidth / 4;
  },
  Home: () => {
    view.scrollLeft = 0;
  },
  End: () => {
    view.scrollLeft = width();
  },
  '+': () => zoom(1.4),
  '=': () => zoom(1.4),
  '-': () => zoom(1 / 1.4),
  0: fit,
  n: () => goTo(pinned === null ? 0 : at + 1),
  p: () => goTo(at - 1),
  '.': () => walk(1),
  ',': () => walk(-1),
  Escape: () => pin(null),
});
byId('in').addEventListener('click', () => zoom(1.4));
byId('out').addEventListener('click', () => zoom(1 / 1.4));
byId('fit').addEventListener('click', fit);
for (const button of document.querySelectorAll('[data-show]'))
  button.addEventListener('click', () => draw(Number(button.dataset.show)));
if (data.windows.length) draw(0);
