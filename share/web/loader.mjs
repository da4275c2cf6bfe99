// Unpacks the rest of the page: the style and the scripts, which the policy of the page knows by their digests, and the
// module. Before that nothing is shown.
import {unpacked} from './unpacking.mjs';

const bytesIn = id => unpacked(document.getElementById(id).textContent);
const failed = it => {
  const said = document.getElementById('said');
  said.textContent = `This browser can't show the page: ${it}`;
  said.style.visibility = 'visible';
};
const page = window.page = {};
page.module = async () => WebAssembly.compile(await bytesIn('module'));

function add(tag, text) {
  const made = document.createElement(tag);
  made.textContent = text;
  document.body.append(made);
}

async function load() {
  Object.assign(page, JSON.parse(new TextDecoder().decode(await bytesIn('rest'))));
  add('style', page.style);
  for (const it of page.scripts) add('script', it);
}

load().catch(failed);
