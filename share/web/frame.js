// Stands in the page of `b show` where that is beside the editor, after its script, and uses what that has: it shows
// the steps that the page around it tells, and the words that are watched, and hands the keys on.
"use strict";
{
  const tell = it => parent.postMessage(it, "*");
  const NAME = /^(?:@?(\d+)|([\w.]+)(?:\[(\d+)\])?(?: of (\w+))?)$/;
  const watched = element("div", undefined, "words");
  watched.id = "watched";
  $("parts").before(watched);

  // The nearest call that has a word of this name, or the definition.
  function owner(name, of) {
    for (let call = running(); call; call = call.below) {
      const own = (!of || call.name === of) && functions.get(call.name)?.names.find(it => it[0] === name);
      if (own) return { call, own: call, address: unsigned(call.start + own[1]) };
    }
    const spot = !of && spots.find(it => it.name === name && !it.isFunction);
    return spot ? { address: spot.from } : null;
  }

  // The word that a text means: a name, an index after it, or an address.
  function meantBy(text) {
    const [, address, name, index, of] = NAME.exec(text) ?? [];
    if (address) return { address: unsigned(Number(address)) };
    const found = name && owner(name, of);
    if (!found || index === undefined) return found;
    return { call: found.call, address: unsigned((words.get(found.address) ?? 0) + Number(index)) };
  }

  // The words are marked that have changed since the position before, which may have been in another frame.
  let seen = { at: null };
  function watch(texts, given) {
    if (seen.at !== at) seen = { at, before: seen.values ?? given };
    const { before } = seen, values = seen.values = {};
    watched.replaceChildren(...texts.map(text => {
      const found = meantBy(text);
      if (!found) return element("span", `${text} isn't here`);
      const { address, call, own } = found, value = words.get(address) ?? 0;
      values[text] = value;
      const isChanged = text in before && before[text] !== value;
      const name = call && call !== running() && !text.includes(" of ") ? `${text} of ${call.name}` : text;
      return word(address, name, new Set(isChanged ? [address] : []), { call: own });
    }));
    return values;
  }

  const names = () => {
    const own = [];
    for (let call = running(); call; call = call.below) own.push(...functions.get(call.name)?.names ?? []);
    return [...new Set([...own.map(it => it[0]), ...spots.filter(it => !it.isFunction).map(it => it.name)])];
  };

  function go({ at: to, since, single, arrows, source, watch: texts, before }) {
    document.body.classList.toggle("with-source", source);
    for (const [id, is] of [["single", single], ["all-arrows", arrows]]) if ($(id).checked !== is) $(id).click();
    show(to, since ?? Infinity);
    tell({ values: watch(texts, before), names: names() });
  }

  // Beside the editor nothing is asked, also where comments of the program choose lines.
  function beside() {
    document.body.classList.add("beside");
    $("asks").checked = false;
  }

  function ask({ stops: chosen, at: to }) {
    askAt(chosen);
    $("asks").checked = true;
    show(to);
  }

  addEventListener("message", ({ data, source }) => {
    if (source !== parent) return;
    document.documentElement.dataset.theme = data.theme;
    if (data.beside) beside();
    if (data.go) go(data.go);
    if (data.ask) ask(data.ask);
    if (data.press) document.dispatchEvent(new KeyboardEvent("keydown", data.press));
  });
  addEventListener("keydown", event => {
    if (!document.body.classList.contains("beside") || event.ctrlKey || event.altKey || event.metaKey) return;
    event.stopImmediatePropagation();
    if (/^(Tab|Enter| |ArrowUp|ArrowDown|Page.*)$/.test(event.key)) return;
    event.preventDefault();
    tell({ key: event.key, shiftKey: event.shiftKey });
  }, true);
  tell({ ready: true });
}
