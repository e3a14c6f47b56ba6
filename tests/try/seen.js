// What a person sees of a page, asked by tests/try in the browser: one object of questions.
({
  // The lamps of all events so far, the last first.
  table: () => [...document.querySelectorAll('#events tr')].map(row => [row.cells[1].innerText.split(/\s+/).pop(), parseInt(row.cells[2].innerText)]),

  // Where an element can be clicked, once it is in sight; nothing where something covers it.
  spot(element) {
    element.scrollIntoView({ block: 'center' });
    const box = element.getBoundingClientRect(), x = box.x + box.width / 2, y = box.y + box.height / 2;
    return element.contains(document.elementFromPoint(x, y)) ? [x, y] : null;
  },

  // Other events in the page's address; done when the page has taken them.
  address: events => new Promise(done => { addEventListener('hashchange', () => done(0), { once: true }); location.hash = events; }),

  // Whether nothing stands beyond the screen's edges.
  fits: () => document.documentElement.scrollWidth <= innerWidth && [...document.querySelectorAll('button, label, legend, #lamp .lamp')].every(element => {
    const box = element.getBoundingClientRect();
    return box.right <= innerWidth + 0.5 && box.left >= -0.5;
  }),

  // What is to be clicked and is less than 44 high: too small for a finger.
  small: () => [...document.querySelectorAll('button, .ways label, .restart, summary')]
    .filter(element => element.getClientRects().length && element.getBoundingClientRect().height < 44).map(element => element.outerHTML.slice(0, 80)),

  // Texts that stand out from what is behind them by less than 4.5 to 1.
  pale() {
    const parts = colour => colour.match(/[\d.]+/g).map(Number);
    const bent = c => c <= 0.04045 ? c / 12.92 : ((c + 0.055) / 1.055) ** 2.4;
    const light = ([r, g, b]) => 0.2126 * bent(r / 255) + 0.7152 * bent(g / 255) + 0.0722 * bent(b / 255);
    const behind = element => {
      for (; element; element = element.parentElement) {
        const colour = parts(getComputedStyle(element).backgroundColor);
        if (colour.length === 3 || colour[3] === 1) return colour;
      }
      return [255, 255, 255];
    };
    const ratio = element => {
      const [more, less] = [light(parts(getComputedStyle(element).color)), light(behind(element))].sort((a, b) => b - a);
      return (more + 0.05) / (less + 0.05);
    };
    const hasText = element => [...element.childNodes].some(node => node.nodeType === 3 && node.textContent.trim());
    return [...document.querySelectorAll('main *')].filter(element => !element.closest('svg, script, noscript') && element.getClientRects().length && hasText(element))
      .filter(element => ratio(element) < 4.5).map(element => element.outerHTML.slice(0, 80) + ' ' + ratio(element).toFixed(2));
  },
})
