// node tools/checks/page_lines.mjs PAGE CALL: what the proved code in a page says of each text, or texts, of the JSON list on standard input,
// by the page's own way to ask it; printed as a JSON list.
import { readFileSync } from "node:fs";
const [page, call] = [readFileSync(process.argv[2], "utf8"), process.argv[3]];
const [asking] = page.match(/let compiled;[^]*?\n}\n/), [module] = page.match(/const MODULE = "[^"]*";/);
const proved = new Function(`${module}\n${asking}\nreturn proved;`)();
const said = [];
for (const texts of JSON.parse(readFileSync(0, "utf8"))) {
  const [text, ...more] = [texts].flat().map(it => Buffer.from(it, "latin1"));
  said.push(await proved(call, text, 524288, ...more));
}
console.log(JSON.stringify(said));
