// What the part of the page's address behind # says, as `#place=70`.

function words() {
  return new URLSearchParams(location.hash.slice(1));
}

// A word of it, null where it isn't there.
export function linked(name) {
  return words().get(name);
}

// Goes to the place that the address names, now and when it changes.
export function followLink(player) {
  const go = () => {
    const place = linked("place");
    if (place !== null && /^\d+$/.test(place)) player.goTo(Number(place));
  };
  window.addEventListener("hashchange", go);
  go();
}
