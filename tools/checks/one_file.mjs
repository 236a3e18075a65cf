// node tools/checks/one_file.mjs MODULE: the proved office as the one file calls it, by `works` of page/alone.js. Each question on standard input
// is a database file and a stream, an answer on standard output a status, the answers and the file after them, each byte string after its
// length in four bytes. It ends with standard input.
import { readFileSync } from "node:fs";
const [works] = readFileSync(new URL("../../page/alone.js", import.meta.url), "utf8").match(/^function works\(\) {[^]*?\n}\n/m);
let told;
const onmessage = new Function("postMessage", `let onmessage;\n${works}\nworks();\nreturn onmessage;`)(it => told(it));
await onmessage({ data: { module: await WebAssembly.compile(readFileSync(process.argv[2])) } });
const framed = bytes => {
  const length = Buffer.alloc(4);
  length.writeUInt32LE(bytes.length);
  return Buffer.concat([length, bytes]);
};
let held = Buffer.alloc(0);
for await (const piece of process.stdin) {
  held = Buffer.concat([held, piece]);
  for (;;) {
    const first = held.length < 4 ? Infinity : 4 + held.readUInt32LE(0);
    const all = held.length < first + 4 ? Infinity : first + 4 + held.readUInt32LE(first);
    if (held.length < all) break;
    const [file, stream] = [held.subarray(4, first), held.subarray(first + 4, all)].map(it => new Uint8Array(it));
    held = held.subarray(all);
    const came = new Promise(done => { told = done; });
    onmessage({ data: { file, stream } });
    const { status, answers = Buffer.alloc(0), left = Buffer.alloc(0), fault } = await came;
    if (fault) throw new Error(fault);
    process.stdout.write(Buffer.concat([Buffer.from([status]), framed(answers), framed(left)]));
  }
}
