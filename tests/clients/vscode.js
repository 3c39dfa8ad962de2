// Starts the extension for VS Code as VS Code would, with a stand-in for the calls that it makes, and opens a file: the client
// of the stand-in starts the program that the extension names, talks to it and keeps its lists. If a workspace is named, the file
// stands in it, and files of its library and its settings are changed too. Prints what was found, as JSON.
const fs = require('fs');
const path = require('path');
const { spawn } = require('child_process');
const { pathToFileURL } = require('url');
const Module = require('module');

const [folder, program, file, workspace] = process.argv.slice(2);
const SETTINGS = { 'hlasm-ls.command': program, 'hlasm-ls.debugCommand': 'hlasm-debug' };
const manifest = JSON.parse(fs.readFileSync(path.join(folder, 'package.json'), 'utf8'));
const found = { version: manifest.version, lists: {}, typed: [], asked: [], changes: [] };

// The language of a file, by the manifest.
function languageOf(name) {
  const language = manifest.contributes.languages.find((it) => it.extensions.includes(path.extname(name)));
  return language && language.id;
}

class LanguageClient {
  constructor(id, name, { command, args }, { documentSelector, synchronize }) {
    Object.assign(this, { command, args, documentSelector, waiting: new Map(), input: Buffer.alloc(0), requests: 0 });
    found.client = { id, name };
    for (const watcher of synchronize.fileEvents) {
      for (const [event, type] of [['onDidCreate', 1], ['onDidChange', 2], ['onDidDelete', 3]]) {
        watcher[event]((uri) => this.tell('workspace/didChangeWatchedFiles', { changes: [{ uri: uri.href, type }] }));
      }
    }
  }

  async start() {
    this.process = spawn(this.command, this.args);
    this.ended = new Promise((done) => this.process.on('exit', done));
    this.process.stdout.on('data', (piece) => this.read(piece));
    const rootUri = workspace ? pathToFileURL(workspace).href : null;
    const { capabilities } = await this.ask('initialize', { processId: process.pid, rootUri, capabilities: {} });
    // The generic client puts each of these before the user.
    for (const offer of ['hoverProvider', 'definitionProvider', 'referencesProvider', 'documentSymbolProvider']) {
      if (capabilities[offer]) found.asked.push(offer);
    }
    this.tell('initialized', {});
  }

  // Opens a file if the selector takes it. The list that is published for it.
  open(name) {
    const language = languageOf(name);
    if (!this.documentSelector.some((it) => it.language === language && it.scheme === 'file')) return null;
    const uri = pathToFileURL(name).href;
    const published = this.list(uri);
    this.tell('textDocument/didOpen', { textDocument: { uri, languageId: language, version: 1, text: fs.readFileSync(name, 'utf8') } });
    return published;
  }

  // The next list of a file.
  list(uri) {
    return new Promise((done) => this.waiting.set(uri, done));
  }

  async stop() {
    await this.ask('shutdown');
    this.tell('exit');
    found.status = await this.ended;
  }

  send(message) {
    const body = Buffer.from(JSON.stringify({ jsonrpc: '2.0', ...message }));
    this.process.stdin.write(`Content-Length: ${body.length}\r\n\r\n`);
    this.process.stdin.write(body);
  }

  tell(method, params) {
    this.send({ method, params });
  }

  ask(method, params) {
    const id = ++this.requests;
    this.send({ id, method, params });
    return new Promise((done) => this.waiting.set(id, done));
  }

  read(piece) {
    this.input = Buffer.concat([this.input, piece]);
    for (;;) {
      const head = this.input.indexOf('\r\n\r\n');
      const length = head >= 0 && Number(/Content-Length: (\d+)/.exec(this.input.toString('latin1', 0, head))[1]);
      if (head < 0 || this.input.length < head + 4 + length) return;
      this.hear(JSON.parse(this.input.toString('utf8', head + 4, head + 4 + length)));
      this.input = this.input.subarray(head + 4 + length);
    }
  }

  hear({ id, method, result, params }) {
    const key = method === 'textDocument/publishDiagnostics' ? params.uri : id;
    const done = this.waiting.get(key);
    this.waiting.delete(key);
    if (done) done(method ? params.diagnostics : result);
  }
}

// The watchers of the stand-in, which see a change when they are told of it.
const watchers = new Set();

class Watcher {
  constructor({ base, files }) {
    const form = new RegExp(`^${files.replace(/[.]/g, '\\.').replace(/[*]/g, '[^/]*')}$`);
    this.sees = (name) => form.test(path.relative(base, name));
    this.hooks = { onDidCreate: [], onDidChange: [], onDidDelete: [] };
    for (const event of Object.keys(this.hooks)) this[event] = (hook) => this.hooks[event].push(hook);
    watchers.add(this);
  }

  dispose() {
    watchers.delete(this);
  }
}

// Writes or deletes a file of the workspace, and tells the watchers that see it.
function change(name, text) {
  const whole = path.join(workspace, name);
  const event = text === undefined ? 'onDidDelete' : fs.existsSync(whole) ? 'onDidChange' : 'onDidCreate';
  if (text === undefined) fs.rmSync(whole);
  else fs.writeFileSync(whole, text);
  for (const watcher of [...watchers].filter((it) => it.sees(whole))) watcher.hooks[event].forEach((hook) => hook(pathToFileURL(whole)));
}

// What happens in the library of the workspace, and the program's list after each.
async function changeLibrary() {
  const macro = '         MACRO\n         SHR\n         MEND\n';
  const groups = fs.readFileSync(path.join(workspace, '.hlasmplugin/proc_grps.json'), 'utf8');
  const see = async (name, text) => {
    const list = client.list(pathToFileURL(file).href);
    change(name, text);
    found.changes.push([name, (await list).map((it) => it.code)]);
  };
  await see('lib/SHR.mac', macro);
  await see('lib/SHR.mac', macro.replace(' MEND', " MNOTE 8,'x'\n         MEND"));
  await see('lib/SHR.mac', undefined);
  change('.hlasmplugin/proc_grps.json', groups.replace('"lib"', '"other"')); // which changes no list yet
  await see('other/SHR', macro);
}

let client;
const commands = {};
const adapters = {};
const editor = { selections: [], edit: async (change) => change({ insert: (at, text) => found.typed.push([at.character, text.length]) }) };
const vscode = {
  workspace: {
    getConfiguration: (section) => ({ get: (name) => SETTINGS[`${section}.${name}`] }),
    workspaceFolders: workspace ? [{ uri: { scheme: 'file', fsPath: workspace } }] : undefined,
    createFileSystemWatcher: (pattern) => new Watcher(pattern),
  },
  EventEmitter: class {
    constructor() {
      this.hooks = [];
      this.event = (hook) => this.hooks.push(hook);
    }

    fire(it) {
      this.hooks.forEach((hook) => hook(it));
    }

    dispose() {
      this.hooks = [];
    }
  },
  RelativePattern: class {
    constructor(base, files) {
      Object.assign(this, { base: base.fsPath, files });
    }
  },
  Uri: { file: (fsPath) => ({ fsPath }) },
  commands: { registerCommand: (name, run) => { commands[name] = run; return { dispose() {} }; } },
  window: { get activeTextEditor() { return editor; } },
  DebugAdapterExecutable: class {
    constructor(command, args) {
      Object.assign(this, { command, args });
    }
  },
  debug: { registerDebugAdapterDescriptorFactory: (type, factory) => { adapters[type] = factory; return { dispose() {} }; } },
};
class Started extends LanguageClient {
  constructor(...words) {
    super(...words);
    client = this;
  }
}
const modules = { vscode, 'vscode-languageclient/node': { LanguageClient: Started } };
const load = Module._load;
Module._load = (name, ...rest) => modules[name] || load(name, ...rest);

async function main() {
  const extension = require(path.resolve(folder, manifest.main));
  const context = { subscriptions: [] };
  await extension.activate(context);
  found.disposables = context.subscriptions.length;
  const [debugged] = manifest.contributes.debuggers;
  const adapterIn = (workspaceFolder) => adapters[debugged.type].createDebugAdapterDescriptor({ workspaceFolder });
  found.adapters = [undefined, { uri: { fsPath: '/w' } }].map(adapterIn);
  for (const name of [file, `${file}.txt`]) found.lists[path.basename(name)] = await client.open(name);
  if (workspace) await changeLibrary();
  editor.selections = [0, 3, 8, 9, 14, 15, 16, 23].map((character) => ({ active: { line: 0, character } }));
  for (const { command } of manifest.contributes.commands) await commands[command]();
  await extension.deactivate();
  console.log(JSON.stringify(found));
}

main().catch((fault) => { console.error(fault); process.exit(1); });
