// What the page's script finds in a browser, as far as it needs it to show charts, and a reader of what it has shown.
'use strict';

class Stub {
  constructor() { Object.assign(this, { children: [], found: new Map(), textContent: '', value: '', hidden: false, style: {}, tBodies: [], clientWidth: 600, clientHeight: 170 }); }
  get content() { return { firstElementChild: new Stub() }; }
  get classList() { return { toggle() {} }; }
  get childElementCount() { return this.children.length; }
  get nextElementSibling() { return null; }
  cloneNode() { return new Stub(); }
  querySelector(selector) {
    if (!this.found.has(selector)) this.found.set(selector, new Stub());
    return this.found.get(selector);
  }
  querySelectorAll() { return []; }
  append(...more) { this.children.push(...more); }
  replaceChildren(...all) { this.children = all; }
  getContext() { return new Proxy({}, { get: () => () => {}, set: () => true }); }
  after() {}
  remove() {}
  setAttribute() {}
  addEventListener() {}
  /** The texts of what is seen of it. */
  texts() {
    if (this.hidden) return [];
    return [this.textContent, ...[...this.found.values(), ...this.children].flatMap(it => it instanceof Stub ? it.texts() : [it])].filter(text => text);
  }
}

const page = new Stub(), waiting = [];
Object.assign(globalThis, {
  document: { getElementById: id => page.querySelector(id), createElement: () => new Stub(), addEventListener() {}, dispatchEvent() {}, body: page, documentElement: page },
  getComputedStyle: () => ({ getPropertyValue: () => '' }), matchMedia: () => page, requestAnimationFrame: what => waiting.push(what), setInterval() {},
  ResizeObserver: class { observe() {} }, EventSource: class { addEventListener() {} }, CustomEvent: class {}, devicePixelRatio: 1, location: { hash: '' },
});

/** Has the page take frames and draw, and gives what each card shows then: its numbers by their names, the times below the chart, and all texts. */
function shownOf(take, cards, frames) {
  for (const frame of frames) take(frame);
  for (const what of waiting.splice(0)) what();
  return Object.fromEntries([...cards].map(([name, { root }]) => {
    const times = root.querySelector('.times'), pairs = root.querySelector('.numbers').children.map(it => it.texts()).filter(it => it.length);
    return [name, { numbers: Object.fromEntries(pairs), times: times.hidden ? null : times.children.map(it => it.textContent), texts: root.texts() }];
  }));
}
