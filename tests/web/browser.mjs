// Chromium without a window, driven by its own protocol over a pipe, and a server of a folder's files. This module needs Node and the
// program `chromium`, and no package.
import { spawn } from "node:child_process";
import fs from "node:fs";
import http from "node:http";
import os from "node:os";
import path from "node:path";

const KINDS = { ".html": "text/html", ".css": "text/css", ".js": "text/javascript", ".wasm": "application/wasm", ".json": "application/json", ".svg": "image/svg+xml", ".webmanifest": "application/manifest+json" };
export const sleep = (ms) => new Promise((resolve) => setTimeout(resolve, ms));

/** Serves a folder on this machine, until it is cut off; `asked` has the method and the path of each request that wasn't cut off. */
export async function serve(folder) {
    const asked = [];
    let isCutOff = false;
    const server = http.createServer((request, response) => {
        if (isCutOff) return request.socket.destroy();
        asked.push(`${request.method} ${request.url}`);
        const file = path.join(folder, request.url === "/" ? "index.html" : path.normalize(new URL(request.url, "http://it").pathname));
        if (!fs.existsSync(file)) return response.writeHead(404).end();
        response.writeHead(200, { "Content-Type": KINDS[path.extname(file)] ?? "text/plain" }).end(fs.readFileSync(file));
    });
    await new Promise((resolve) => server.listen(0, "127.0.0.1", resolve));
    return { address: `http://127.0.0.1:${server.address().port}/`, asked, cutOff(is) { isCutOff = is; }, close: () => server.close() };
}

/** Waits until a test holds; else it fails with these words. */
export async function until(test, what, seconds = 20) {
    for (const end = Date.now() + seconds * 1000; ; await sleep(20)) {
        const found = await test();
        if (found) return found;
        if (Date.now() > end) throw new Error(`not so: ${what}`);
    }
}

export class Browser {
    #process;
    #waiting = new Map();
    #last = 0;
    /** Errors in the browser's log of the page, and exceptions that nothing caught. */
    complaints = [];

    static async start() {
        const it = new Browser();
        it.folder = fs.mkdtempSync(path.join(os.tmpdir(), "browser-"));
        const flags = ["--headless=new", "--no-sandbox", "--disable-gpu", "--disable-dev-shm-usage", "--hide-scrollbars=false",
            "--no-first-run", "--disable-background-networking", "--remote-debugging-pipe", `--user-data-dir=${it.folder}`];
        it.#process = spawn("chromium", flags, { stdio: ["ignore", "ignore", "ignore", "pipe", "pipe"] });
        process.once("exit", () => it.#ends());
        let held = "";
        it.#process.stdio[4].setEncoding("utf8").on("data", (more) => {
            const messages = (held + more).split("\0");
            held = messages.pop();
            for (const message of messages) it.#takes(JSON.parse(message));
        });
        const { targetId } = await it.#send("Target.createTarget", { url: "about:blank" });
        it.session = (await it.#send("Target.attachToTarget", { targetId, flatten: true })).sessionId;
        for (const domain of ["Page", "Runtime", "Log", "DOM"]) await it.call(`${domain}.enable`);
        await it.#send("Browser.setDownloadBehavior", { behavior: "allow", downloadPath: it.folder });
        return it;
    }

    #takes({ id, method, params, error, result }) {
        if (method === "Runtime.exceptionThrown") this.complaints.push(params.exceptionDetails.exception?.description ?? params.exceptionDetails.text);
        if (method === "Log.entryAdded" && params.entry.level === "error") this.complaints.push(`${params.entry.text} ${params.entry.url ?? ""}`);
        const waiting = this.#waiting.get(id);
        this.#waiting.delete(id);
        if (error) waiting?.reject(new Error(error.message));
        else waiting?.resolve(result);
    }

    #send(method, params = {}, sessionId = undefined) {
        this.#last += 1;
        const id = this.#last;
        this.#process.stdio[3].write(`${JSON.stringify({ id, method, params, sessionId })}\0`);
        return new Promise((resolve, reject) => this.#waiting.set(id, { resolve, reject }));
    }

    /** Calls a method of the browser's protocol for the page. */
    call(method, params) {
        return this.#send(method, params, this.session);
    }

    /** Runs a function in the page, with these arguments. */
    async run(code, ...given) {
        const expression = `(${code})(...${JSON.stringify(given)})`;
        const { result, exceptionDetails } = await this.call("Runtime.evaluate", { expression, returnByValue: true, awaitPromise: true, userGesture: true });
        if (exceptionDetails) throw new Error(exceptionDetails.exception?.description ?? exceptionDetails.text);
        return result.value;
    }

    async open(address, { width = 1200, height = 900, isDark = false } = {}) {
        await this.call("Emulation.setDeviceMetricsOverride", { width, height, deviceScaleFactor: 1, mobile: width < 500 });
        await this.call("Emulation.setEmulatedMedia", { features: [{ name: "prefers-color-scheme", value: isDark ? "dark" : "light" }] });
        await this.call("Page.navigate", { url: "about:blank" });
        await this.call("Page.navigate", { url: address });
    }

    /** Types a text where the focus is. */
    type(text) {
        return this.call("Input.insertText", { text });
    }

    async press(key, code = key, number = 0, text = undefined) {
        const it = { key, code, windowsVirtualKeyCode: number, text };
        await this.call("Input.dispatchKeyEvent", { type: "keyDown", ...it });
        await this.call("Input.dispatchKeyEvent", { type: "keyUp", ...it });
    }

    /** Chooses a file in the first element that a CSS selector matches. */
    async choose(css, file) {
        const { root } = await this.call("DOM.getDocument");
        const { nodeId } = await this.call("DOM.querySelector", { nodeId: root.nodeId, selector: css });
        await this.call("DOM.setFileInputFiles", { nodeId, files: [file] });
    }

    async shot(file, isWhole = true) {
        const { data } = await this.call("Page.captureScreenshot", { captureBeyondViewport: isWhole, format: "png" });
        fs.writeFileSync(file, Buffer.from(data, "base64"));
    }

    async close() {
        const ended = new Promise((resolve) => this.#process.once("exit", resolve));
        this.#send("Browser.close").catch(() => {});
        await Promise.race([ended, sleep(3000)]);
        this.#ends();
    }

    #ends() {
        this.#process.kill("SIGKILL");
        fs.rmSync(this.folder, { recursive: true, force: true, maxRetries: 5, retryDelay: 100 });
    }
}
