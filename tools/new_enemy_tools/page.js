"use strict";
(() => {
  const form = document.querySelector("form");
  const items = [...document.querySelectorAll("[data-effect]")];
  const count = document.getElementById("count");
  const fields = [...form.elements].filter((field) => field.name);

  // A choice has to be equal; a text has to stand somewhere in what is shown.
  const fits = (item, field) => {
    const text = item.getAttribute("data-" + field.name) || "";
    return !field.value || (field.tagName === "SELECT" ? text === field.value : text.toLowerCase().includes(field.value.toLowerCase()));
  };

  const stories = document.querySelector("main");
  const show = () => {
    let rows = 0;
    for (const item of items) {
      item.hidden = !fields.every((field) => fits(item, field));
      rows += item.tagName === "TR" && !item.hidden;
    }
    if (stories) stories.hidden = !stories.querySelector("details:not([hidden])");
    count.textContent = rows + " of " + items.filter((item) => item.tagName === "TR").length + " findings of this page are shown";
  };

  // The filters stand in the address, so that what is shown can be kept and passed on.
  const write = () => {
    const said = new URLSearchParams(fields.filter((field) => field.value).map((field) => [field.name, field.value]));
    history.replaceState(null, "", "#" + said);
    for (const link of document.querySelectorAll("nav.pages a")) link.hash = String(said);
    show();
  };
  const read = () => {
    // An address without filters names a place of the page, as a story, which is opened.
    const place = location.hash && !location.hash.includes("=") && document.getElementById(location.hash.slice(1));
    if (place) {
      place.open = true;
      return;
    }
    const said = new URLSearchParams(location.hash.slice(1));
    for (const field of fields) field.value = said.get(field.name) || "";
    for (const link of document.querySelectorAll("nav.pages a")) link.hash = location.hash;
    show();
  };

  form.addEventListener("input", write);
  form.addEventListener("submit", (event) => event.preventDefault());
  form.addEventListener("reset", () => setTimeout(write));
  addEventListener("hashchange", read);
  addEventListener("beforeprint", () => document.querySelectorAll("details:not([hidden])").forEach((story) => { story.open = true; }));
  form.hidden = false;
  show();
  read();
})();
