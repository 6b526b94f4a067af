// The sentences of the page, by their keys, in the page's language. A sentence may have places for values, as {code}.

let sentences = {};

export function speak(table) {
  sentences = table;
}

export function say(key, values = {}) {
  return sentences[key].replace(/\{([a-z]+)\}/g, (_, name) => values[name]);
}
