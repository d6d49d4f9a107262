// Types into the fields of examples/editor/editor.html, which it stands behind, at random, and says whether all hold
// one text in the end: EDITS edits at as many fields as there are, and one or more further ones that no page shows.
"use strict";

function typed(edits, further, seed) {
  let state = seed;
  const below = (bound) => {
    state = (Math.imul(state, 1664525) + 1013904223) >>> 0;
    return Math.floor((state / 2 ** 32) * bound);
  };
  for (let count = 0; count < further; count += 1) {
    new Editor({ value: "", selectionStart: 0, selectionEnd: 0, setSelectionRange(start, end) {
      this.selectionStart = start;
      this.selectionEnd = end;
    } });
  }
  const letters = Array.from("ab \n\u00e9\ufb01\u{1d538}");
  for (let edit = 0; edit < edits; edit += 1) {
    const editor = editors[below(editors.length)];
    const old = Array.from(editor.area.value);
    const from = below(old.length + 1);
    const went = below(old.length > 300 ? 6 : 3);
    const came = Array.from({ length: below(3) }, () => letters[below(letters.length)]);
    const now = [...old.slice(0, from), ...came, ...old.slice(from + went)].join("");
    editor.area.value = now;
    const caret = [...old.slice(0, from), ...came].join("").length;
    editor.area.setSelectionRange(caret, caret);
    editor.changed();
    const shown = editor.isOffline ? now : editor.area.value;
    if (String(editor.client.shared) !== shown) return `field ${editor.client.site} shows what its client has not`;
    if (below(8) === 0) editor.isOffline = !editor.isOffline;
  }
  for (const editor of editors) editor.isOffline = false;
  exchange();
  for (const editor of editors) {
    if (editor.area.value !== String(server.shared) || editor.client.pending.length > 0) {
      return `field ${editor.client.site} has ${editor.area.value} and the server ${server.shared}`;
    }
  }
  return `${edits} edits at ${editors.length} fields, ${server.log.length} entries: one text`;
}
