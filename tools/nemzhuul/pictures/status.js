"use strict";
addEventListener("error", (event) => { document.documentElement.dataset.error = event.message; });

const PERIOD = 1000, PATIENCE = 10000;  // milliseconds
const lost = document.getElementById("lost");

// Replaces the children of a part that are not the same, and keeps the others with their selection.
function renew(part, fresh) {
  const kept = new Map([...part.children].map((node) => [node.outerHTML, node]));
  const take = (node) => { const own = kept.get(node.outerHTML); kept.delete(node.outerHTML); return own || node; };
  part.replaceChildren(...[...fresh.children].map(take));
}

async function update() {
  try {
    const answer = await fetch("/", { cache: "no-store", signal: AbortSignal.timeout(PATIENCE) });
    if (!answer.ok) throw new Error(answer.status);
    const page = new DOMParser().parseFromString(await answer.text(), "text/html");
    for (const part of document.querySelectorAll("[data-part]")) {
      const fresh = page.querySelector(`[data-part="${part.dataset.part}"]`);
      if (fresh && fresh.innerHTML !== part.innerHTML) renew(part, fresh);
    }
    document.documentElement.dataset.updates = 1 + Number(document.documentElement.dataset.updates || 0);
    lost.hidden = true;
  } catch (error) {
    lost.hidden = false;
  }
  setTimeout(update, PERIOD);
}

setTimeout(update, PERIOD);
document.documentElement.dataset.ready = "yes";
