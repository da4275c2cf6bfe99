// Talks to the language server, b-lsp, which is a process of its own, as the protocol of language servers wants.
"use strict";

const { spawn } = require("child_process");

const MOST = 1 << 28; // bytes of a message

/** Takes messages out of bytes, as they come, and hands each on. */
class Frames {
    constructor(take) {
        this.take = take;
        this.parts = [];
        this.size = 0;
        this.wanted = -1;
    }

    add(part) {
        this.parts.push(part);
        this.size += part.length;
        while (this.size > 0 && (this.wanted < 0 ? this.readHead() : this.readBody()));
    }

    whole() {
        if (this.parts.length > 1)
            this.parts = [Buffer.concat(this.parts)];
        return this.parts[0];
    }

    pass(count) {
        this.parts = [this.whole().subarray(count)];
        this.size -= count;
    }

    /** Reads how long the next message is; whether all of that is there. */
    readHead() {
        const bytes = this.whole();
        const end = bytes.indexOf("\r\n\r\n");
        if (end < 0)
            return false;
        const length = /^content-length:\s*(\d+)\s*$/im.exec(bytes.toString("latin1", 0, end));
        this.wanted = length ? Number(length[1]) : 0;
        if (this.wanted > MOST)
            throw new Error("the message is too long");
        this.pass(end + 4);
        return true;
    }

    readBody() {
        if (this.size < this.wanted)
            return false;
        const text = this.whole().toString("utf8", 0, this.wanted);
        this.pass(this.wanted);
        this.wanted = -1;
        if (text)
            this.take(JSON.parse(text));
        return true;
    }
}

/** The language server. What it tells without a question goes to `hear`, and its end to `ended`. */
class Client {
    constructor(command, words, hear, ended) {
        this.number = 0;
        this.waiting = new Map();
        this.hear = hear;
        this.isOpen = true;
        this.child = spawn(command, words, { stdio: ["pipe", "pipe", "ignore"] });
        const frames = new Frames((message) => this.take(message));
        this.child.stdout.on("data", (part) => frames.add(part));
        this.child.stdin.on("error", () => {});
        const over = (reason) => {
            if (this.isOpen)
                ended(reason);
            this.isOpen = false;
            this.waiting.forEach((it) => it.fail(new Error(reason)));
            this.waiting.clear();
        };
        this.child.on("error", (error) => over(error.message));
        this.child.on("exit", (status) => over(`it ended with ${status}`));
    }

    take(message) {
        const asked = this.waiting.get(message.id);
        if (message.method) {
            this.hear(message.method, message.params);
        } else if (asked) {
            this.waiting.delete(message.id);
            if (message.error)
                asked.fail(new Error(message.error.message));
            else
                asked.done(message.result);
        }
    }

    send(message) {
        if (!this.isOpen)
            return;
        const body = Buffer.from(JSON.stringify({ jsonrpc: "2.0", ...message }));
        this.child.stdin.write(`Content-Length: ${body.length}\r\n\r\n`);
        this.child.stdin.write(body);
    }

    tell(method, params) {
        this.send({ method, params });
    }

    /** The answer to a question. */
    ask(method, params) {
        return new Promise((done, fail) => {
            if (!this.isOpen)
                return fail(new Error("the language server of B doesn't run"));
            this.number += 1;
            this.waiting.set(this.number, { done, fail });
            this.send({ id: this.number, method, params });
        });
    }

    async end() {
        if (!this.isOpen)
            return;
        await this.ask("shutdown", null).catch(() => {});
        this.isOpen = false;
        this.child.stdin.end(`Content-Length: 17\r\n\r\n{"method":"exit"}`);
    }
}

module.exports = { Client };
