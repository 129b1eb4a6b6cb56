// The page of a schedule: rings of slots, seats at their tickets, forward and back.
const slots = data.slots;
const radius = slots > 16 ? 168 : slots > 8 ? 138 : slots > 4 ? 112 : 96;  // of the ring of slots
const size = slots > 16 ? 17 : slots > 8 ? 25 : 30;                        // half a slot
const middle = radius + size + 100;  // outside stand the seats
let now = 0;
let timer = null;

const angle = (place) => (2 * Math.PI * place) / slots - Math.PI / 2;
const point = (place, radius) =>
    [middle + radius * Math.cos(angle(place)),
     middle + radius * Math.sin(angle(place)),
];

function entry(word) {
  const index = word % slots;
  return {
    cycle: Math.floor(word / (2 * slots)),
    safe: Math.floor(word / slots) % 2 === 1,
    index: index === slots - 1 ? null : index,
  };
}

// A ring's words after the first `count` steps.
function ringAt(ring, count) {
  for (let i = count - 1; i >= 0; i--)
    if (data.steps[i].ring === ring) return data.steps[i];
  return data.start[ring];
}

function seatAt(seat, count) {
  for (let i = count - 1; i >= 0; i--)
    if (data.steps[i].seat === seat) return data.steps[i];
  return null;
}

function hatched() {
  const defs = drawn('defs');
  const hatch =
      drawn('pattern', {id: 'hatch', width: 6, height: 6, patternUnits: 'userSpaceOnUse'});
  hatch.append(drawn('path', {d: 'M0 6L6 0M-1 1L1 -1M5 7L7 5', class: 'hatch'}));
  defs.append(hatch);
  return defs;
}

function arc(from, count, r) {
  if (count <= 0) return '';
  const [x1, y1] = point(from - 0.5, r);
  if (count >= slots) {
    const [xm, ym] = point(from - 0.5 + slots / 2, r);
    return `M${x1} ${y1}A${r} ${r} 0 0 1 ${xm} ${ym}A${r} ${r} 0 0 1 ${x1} ${y1}`;
  }
  const [x2, y2] = point(from - 0.5 + count, r);
  return `M${x1} ${y1}A${r} ${r} 0 ${count > slots / 2 ? 1 : 0} 1 ${x2} ${y2}`;
}

// H or T inside the ring, at its slot; where both are at one slot they stand side by side.
function hand(svg, letter, place, isMoved) {
  const [x, y] = point(place, radius - size - 13);
  const [x1, y1] = point(place, radius - size - 6), [x2, y2] = point(place, radius - size + 1);
  svg.append(
      drawn('line', {class: 'hand', x1, y1, x2, y2}),
      drawn('text', {class: `hand-text ${isMoved ? 'changed' : ''}`, x, y: y + 4}, letter),
  );
}

function drawRing(ring) {
  const state = ringAt(ring, now), before = ringAt(ring, Math.max(0, now - 1));
  const step = now ? data.steps[now - 1] : null;
  const moved = step && step.ring === ring;
  const box = made('div', {class: 'ring', 'data-ring': ring});
  const svg = drawn('svg', {
    width: 2 * middle,
    height: 2 * middle,
    viewBox: `0 0 ${2 * middle} ${2 * middle}`,
    role: 'img',
    'aria-label':
        `Ring ${ring}: Head ${state.head}, Tail ${state.tail}, Threshold ${state.threshold}`,
  });
  svg.append(hatched());
  const count = Number(BigInt(state.tail) - BigInt(state.head));
  svg.append(drawn('path', {class: 'span', d: arc(state.headAt, count, radius - size - 1)}));
  for (let place = 0; place < slots; place++) {
    const slot = data.slotOf[place];
    const {cycle, safe, index} = entry(state.entries[slot]);
    const [x, y] = point(place, radius);
    const changed = moved && state.entries[slot] !== before.entries[slot];
    const kind =
        `${index === null ? '' : 'full'} ${safe ? '' : 'unsafe'} ${changed ? 'changed' : ''}`;
    const group = drawn('g', {
      class: 'cell',
      'data-slot': slot,
      'data-cycle': cycle,
      'data-safe': safe ? 1 : 0,
      'data-index': index === null ? '' : index
    });
    const rect =
        {x: x - size * 0.82, y: y - size * 0.62, width: size * 1.64, height: size * 1.24, rx: 4};
    group.append(drawn(
        'title', {},
        `slot ${slot}: cycle ${cycle}, ${safe ? 'safe' : 'unsafe'}, ${
            index === null ? 'no index' : 'index ' + index}`));
    group.append(drawn('rect', {class: `slot ${kind}`, ...rect}));
    if (!safe && index === null) group.append(drawn('rect', {class: 'slot-mark', ...rect}));
    group.append(drawn(
        'text', {class: `slot-text ${index === null ? '' : 'full'}`, x, y: y - 1},
        `${cycle} ${safe ? 's' : 'u'}`));
    group.append(drawn(
        'text', {class: `slot-text ${index === null ? '' : 'full'}`, x, y: y + 11},
        index === null ? '–' : `▪${index}`));
    const [ox, oy] = point(place, radius + size + 12);
    group.append(drawn('text', {class: 'slot-number', x: ox, y: oy + 4}, slot));
    svg.append(group);
  }
  const isMoved = (name) => moved && state[name] !== before[name];
  const aside = state.headAt === state.tailAt ? slots / 40 : 0;
  hand(svg, 'H', state.headAt - aside, isMoved('head'));
  hand(svg, 'T', state.tailAt + aside, isMoved('tail'));
  [['', `ring ${ring}`], ['head', `Head ${state.head}`], ['tail', `Tail ${state.tail}`],
   ['threshold', `Threshold ${state.threshold}`]]
      .forEach(
          ([name, words], i) => svg.append(drawn(
              'text', {
                class: `inner ${name && isMoved(name) ? 'changed' : ''}`,
                x: middle,
                y: middle - 20 + 17 * i,
              },
              words)));
  const taken = new Map();
  for (const seat of data.seats) {
    const it = seatAt(seat, now);
    if (!it || it.reply || it.ring !== ring || it.place === null) continue;
    const level = taken.get(it.place) || 0;
    taken.set(it.place, level + 1);
    const [x, y] = point(it.place, radius + size + 32 + 22 * level);
    const group = drawn('g', {
      class: `seat ${it.name[0] === 'D' ? 'get' : 'put'} ${step === it ? 'moving' : ''}`,
      'data-seat': seat
    });
    group.append(
        drawn('title', {}, `seat ${seat}: ${it.call}, ticket ${it.ticket}, made ${it.name}`));
    group.append(drawn('circle', {cx: x, cy: y, r: 10}), drawn('text', {x, y: y + 4}, seat));
    svg.append(group);
  }
  box.append(svg);
  return box;
}

function drawSeats() {
  byId('seats').replaceChildren(...data.seats.map((seat) => {
    const it = seatAt(seat, now);
    const row = made('tr', {'data-seat': seat});
    const idle = !it || it.reply;
    row.append(
        made('td', {}, `seat ${seat}`),
        made('td', {}, idle ? (it ? `idle; ended with ${it.reply}` : 'idle') : it.call),
        made('td', {}, idle || it.ticket === null ? '' : `${it.ticket}, slot ${it.slot}`),
        made('td', {}, it ? it.name : ''),
        made('td', {}, idle ? '' : it.next || 'none: it stops'),
    );
    return row;
  }));
}

function show(step) {
  now = Math.max(0, Math.min(data.steps.length, step));
  document.body.dataset.step = now;
  byId('at').value = now;
  byId('number').textContent = `${now} of ${data.steps.length}`;
  const it = now ? data.steps[now - 1] : null;
  byId('says').textContent = it ?
      `Step ${now}: seat ${it.seat} makes ${it.name} on ring ${it.ring} and ${it.says}` :
      'Before the first step.';
  byId('rings').replaceChildren(...data.rings.map(drawRing));
  drawSeats();
  for (const old of document.querySelectorAll('#steps li.now')) old.classList.remove('now');
  const item = now ? byId('steps').children[now - 1] : null;
  if (item) {
    item.classList.add('now');
    const list = byId('steps');
    list.scrollTop = item.offsetTop - list.offsetTop - list.clientHeight / 2;
  }
}

function play() {
  const isOn = timer === null;
  if (timer !== null) clearInterval(timer);
  timer = isOn ? setInterval(() => (now < data.steps.length ? show(now + 1) : play()), 900) : null;
  byId('play').setAttribute('aria-pressed', String(isOn));
}

byId('steps').append(...data.steps.map((it, i) => {
  const item = made(
      'li', {'data-step': i + 1},
      `seat ${it.seat} ${it.name}, ring ${it.ring}${it.reply ? ': ' + it.reply : ''}`);
  item.addEventListener('click', () => show(i + 1));
  return item;
}));
byId('at').addEventListener('input', () => show(Number(byId('at').value)));
byId('first').addEventListener('click', () => show(0));
byId('back').addEventListener('click', () => show(now - 1));
byId('on').addEventListener('click', () => show(now + 1));
byId('last').addEventListener('click', () => show(data.steps.length));
byId('play').addEventListener('click', play);
onKeys({
  ArrowLeft: () => show(now - 1),
  ArrowRight: () => show(now + 1),
  PageUp: () => show(now - 10),
  PageDown: () => show(now + 10),
  Home: () => show(0),
  End: () => show(data.steps.length),
  ' ': play,
});
show(0);
