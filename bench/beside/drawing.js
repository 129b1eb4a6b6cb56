// A recording's drawing as a file of its own: the names of the lanes at its left, and of the page's
// style what the drawing needs.
(() => {
  const left = 104;
  const wide = Number(svg.getAttribute('width')), high = Number(svg.getAttribute('height'));
  const style = document.querySelector('style').textContent;
  const needed = style.split('/* the page */')[0] +
      style.split('/* the drawing of a recording */')[1].split('/* below it */')[0] +
      '.name { text-anchor: start; font-weight: 700; font-size: 13px; }';
  const size = {width: wide + left, height: high};
  const root = drawn('svg', {role: 'img', viewBox: `${-left} 0 ${wide + left} ${high}`, ...size});
  root.append(
      drawn('title', {}, document.title), drawn('style', {}, needed),
      drawn('rect', {x: -left, y: 0, ...size, fill: 'var(--back)'}));
  shown.lanes.forEach((lane, i) => {
    root.append(drawn('text', {class: 'name', x: 10 - left, y: HEAD + LANE * i + 21}, lane.name));
  });
  root.append(...svg.cloneNode(true).childNodes);
  return new XMLSerializer().serializeToString(root);
})()
