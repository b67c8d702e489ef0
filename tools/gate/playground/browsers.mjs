// A browser without a window, and what is asked of it: Chromium by its DevTools protocol, Firefox by WebDriver BiDi.
import {spawn} from "node:child_process";
import fs from "node:fs";
import path from "node:path";

const sleep = (ms) => new Promise((done) => setTimeout(done, ms));
// Has a program begin, and gives the address that `found` reads in its profile.
async function begun(words, profile, found) {
  fs.mkdirSync(profile, {recursive: true});
  const child = spawn(words[0], words.slice(1), {stdio: "ignore"});
  process.on("exit", () => child.kill("SIGKILL"));
  for (let k = 0; k < 300; k++, await sleep(200)) {
    try { return await opened(await found()); } catch { /* it isn't there yet */ }
  }
  throw new Error(`${words[0]} doesn't answer`);
}
async function opened(address) {
  const socket = new WebSocket(address);
  await new Promise((done, failed) => { socket.onopen = done; socket.onerror = failed; setTimeout(failed, 10000); });
  return socket;
}
// How long a call may take (ms). A browser may lose one, if its page goes while it is asked: none is waited for without end.
const PATIENCE = 60000;
// Calls by number; messages without one go to `heard`. A call fails if the browser goes, or is silent for too long.
function callsOf(socket, heard) {
  const waiting = new Map();
  let next = 0, isGone = false;
  socket.onmessage = ({data}) => {
    const told = JSON.parse(data);
    if (told.id) waiting.get(told.id)?.done(told); else heard(told);
  };
  socket.onclose = () => { isGone = true; for (const {failed} of waiting.values()) failed("the browser has gone"); };
  return (method, params = {}, patience = PATIENCE) => new Promise((done, failed) => {
    const id = ++next, ended = (how) => (it) => { clearTimeout(timer); waiting.delete(id); how(it); };
    const call = {done: ended(done), failed: ended((why) => failed(new Error(`${why}, asked for ${method}`)))};
    const timer = setTimeout(() => call.failed(`no answer for ${patience} ms`), patience);
    waiting.set(id, call);
    if (isGone) call.failed("the browser has gone"); else socket.send(JSON.stringify({id, method, params}));
  });
}
const isOutside = (url) => !/^(file|blob|data|about|chrome|resource|moz-extension):/.test(url);

async function chromium(program, profile, faults) {
  const words = [program, "--headless", "--no-sandbox", "--disable-gpu", "--hide-scrollbars", "--window-size=1400,1300", "--remote-debugging-port=0", `--user-data-dir=${profile}`, "about:blank"];
  const socket = await begun(words, profile, async () => {
    const [port] = fs.readFileSync(path.join(profile, "DevToolsActivePort"), "utf8").split("\n");
    return (await (await fetch(`http://127.0.0.1:${port}/json`)).json()).find((it) => it.type === "page").webSocketDebuggerUrl;
  });
  const send = callsOf(socket, ({method, params}) => {
    if (method === "Runtime.exceptionThrown") faults.push(params.exceptionDetails.exception?.description || params.exceptionDetails.text);
    else if (method === "Network.requestWillBeSent" && isOutside(params.request.url)) faults.push(`asked ${params.request.url}`);
  });
  for (const it of ["Runtime", "Page", "Network"]) await send(`${it}.enable`);
  return {
    go: (url) => send("Page.navigate", {url}),
    async value(expression, patience) {
      const {result: found} = await send("Runtime.evaluate", {expression, awaitPromise: true, returnByValue: true}, patience);
      if (found.exceptionDetails) faults.push(found.exceptionDetails.exception?.description || found.exceptionDetails.text);
      return found.result?.value;
    },
    escape: () => send("Input.dispatchKeyEvent", {type: "keyDown", key: "Escape"}),
    narrow: () => send("Emulation.setDeviceMetricsOverride", {width: 360, height: 740, deviceScaleFactor: 1, mobile: true}),
    picture: async () => Buffer.from((await send("Page.captureScreenshot", {format: "png"})).result.data, "base64"),
    close: () => socket.close(),
  };
}

async function firefox(program, profile, faults) {
  const words = [program, "--headless", "--no-remote", "--width", "1400", "--height", "1300", "--profile", profile, "--remote-debugging-port", "0", "about:blank"];
  const socket = await begun(words, profile, () => {
    const {ws_host: host, ws_port: port} = JSON.parse(fs.readFileSync(path.join(profile, "WebDriverBiDiServer.json"), "utf8"));
    return `ws://${host}:${port}/session`;
  });
  const send = callsOf(socket, ({method, params}) => {
    if (method === "log.entryAdded" && params.level === "error") faults.push(params.text);
    else if (method === "network.beforeRequestSent" && isOutside(params.request.url)) faults.push(`asked ${params.request.url}`);
  });
  await send("session.new", {capabilities: {}});
  const context = (await send("browsingContext.getTree")).result.contexts[0].context;
  await send("session.subscribe", {events: ["log.entryAdded", "network.beforeRequestSent"]});
  const key = (type) => ({type, value: "\uE00C"});
  return {
    go: (url) => send("browsingContext.navigate", {context, url, wait: "none"}),
    async value(expression, patience) {
      // Its own form of values says each of their types: a text in JSON has them as they are.
      const found = await send("script.evaluate", {expression: `(async () => JSON.stringify(await (${expression})))()`, target: {context}, awaitPromise: true}, patience);
      if (found.error || found.result.type === "exception") {
        // Between two pages there is none to ask.
        if (found.error !== "no such frame") faults.push(found.message || found.result.exceptionDetails.text);
        return undefined;
      }
      return found.result.result.value && JSON.parse(found.result.result.value);
    },
    escape: () => send("input.performActions", {context, actions: [{type: "key", id: "keys", actions: [key("keyDown"), key("keyUp")]}]}),
    narrow: () => send("browsingContext.setViewport", {context, viewport: {width: 360, height: 740}}),
    picture: async () => Buffer.from((await send("browsingContext.captureScreenshot", {context})).result.data, "base64"),
    close: () => socket.close(),
  };
}

// Begins a browser, whose profile is a folder of its own; `faults` receives the errors of pages.
export const begin = (kind, program, profile, faults) => (kind === "firefox" ? firefox : chromium)(program, profile, faults);
