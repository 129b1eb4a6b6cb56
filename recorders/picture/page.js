'use strict';
// What both pages share: their data, and elements made of text alone.
const data = JSON.parse(document.getElementById('data').textContent);

function set(element, attributes) {
  for (const [name, value] of Object.entries(attributes)) element.setAttribute(name, value);
  return element;
}

function drawn(tag, attributes = {}, text) {
  const element = document.createElementNS('http://www.w3.org/2000/svg', tag);
  if (text !== undefined) element.textContent = text;
  return set(element, attributes);
}

function made(tag, attributes = {}, text) {
  const element = document.createElement(tag);
  if (text !== undefined) element.textContent = text;
  return set(element, attributes);
}

const byId = (id) => document.getElementById(id);

// What a key does: a name of `KeyboardEvent.key` to a function.
function onKeys(keys) {
  document.addEventListener('keydown', (event) => {
    if (event.ctrlKey || event.metaKey || event.altKey) return;
    if (!Object.hasOwn(keys, event.key)) return;
    if (event.key === ' ' && event.target.closest('button, summary')) return;
    keys[event.key]();
    event.preventDefault();
  });
}
