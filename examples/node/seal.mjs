// Keeps `fle encrypt` and `fle decrypt` open and sends a command at a time through them: bytes of BSON in, bytes out.
// Calls may be made at once: they take turns.
// Run from the top, with fle in PATH: node examples/node/seal.mjs
import { spawn } from "node:child_process";
import { readFileSync } from "node:fs";

const KEYS = "examples/keys.bson";
const SCHEMAS = "examples/people.schemas.json";
const MASTER = "examples/EXAMPLE-ONLY.master";

// One process: it answers each document before it takes the next. Its line, where it refuses one, goes to our own.
class Kept {
  constructor(...words) {
    this.process = spawn("fle", words, { stdio: ["pipe", "pipe", "inherit"] });
    this.process.stdin.on("error", () => {}); // the process has ended: the next answer says so
    this.chunks = this.process.stdout[Symbol.asyncIterator]();
    this.turn = Promise.resolve();
  }

  // The answer to one document, once the calls before it have theirs. After an error begin a new process.
  ask(document) {
    const answer = this.turn.then(() => this.answer(document));
    this.turn = answer.catch(() => {}); // who made that call hears of it
    return answer;
  }

  // The answer to the one document that is under way.
  async answer(document) {
    this.process.stdin.write(document);
    const parts = [];
    for (let length = 4, have = 0; have < length; ) {
      const { value, done } = await this.chunks.next();
      if (done) throw new Error("fle has ended: its line says why");
      parts.push(value);
      have += value.length;
      if (have >= 4) length = Buffer.concat(parts.slice(0, 4)).readInt32LE(); // each part has a byte or more
    }
    return Buffer.concat(parts);
  }

  close() {
    this.process.stdin.end();
  }
}

const seal = new Kept("encrypt", "hr", KEYS, SCHEMAS, MASTER);
const unseal = new Kept("decrypt", KEYS, MASTER);
// Or serialize(command), of the npm package `bson`.
const plain = ["insert", "find", "delete"].map((name) => readFileSync(`examples/${name}.bson`));
const sealed = await Promise.all(plain.map((command) => seal.ask(command)));
const again = await seal.ask(plain[0]);
const opened = await Promise.all(sealed.map((command) => unseal.ask(command)));
const areOpened = opened.every((command, at) => command.equals(plain[at]));
const holds = areOpened && again.equals(sealed[0]) && !Buffer.concat(sealed).includes("123-45-6789");
console.log(holds ? "three at once, one twice alike, and opened to the same bytes" : "NOT THE SAME");
seal.close();
unseal.close();
process.exitCode = holds ? 0 : 1;
