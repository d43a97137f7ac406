"use strict";
(() => {
  const cards = document.getElementById("cards");
  const all = [...cards.children];
  const controls = document.getElementById("controls");
  const number = (card, key) => Number(card.dataset[key]);
  const orders = {
    arrival: (a, b) => number(a, "arrival") - number(b, "arrival"),
    apid: (a, b) => number(a, "apid") - number(b, "apid") || number(a, "image") - number(b, "image") || orders.arrival(a, b),
    damage: (a, b) => number(b, "damage") - number(a, "damage") || orders.arrival(a, b),
  };
  const update = () => {
    const show = controls.elements.show.value;
    cards.append(...all.sort(orders[document.getElementById("sort").value]));
    for (const card of all) {
      card.hidden = show !== "all" && !card.classList.contains(show);
    }
    cards.classList.toggle("without", !document.getElementById("rects").checked);
    const shown = all.filter((card) => !card.hidden).length;
    document.getElementById("count").textContent = `${shown} of ${all.length} images`;
  };
  const target = () => {
    const card = document.getElementById(decodeURIComponent(location.hash.slice(1)));
    if (card && card.hidden) {
      controls.elements.show.value = "all";
      update();
      card.scrollIntoView();
    }
  };
  controls.addEventListener("submit", (event) => event.preventDefault());
  controls.addEventListener("change", update);
  window.addEventListener("hashchange", target);
  controls.hidden = false;
  update();
  target();
})();
