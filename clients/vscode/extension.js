// Starts hlasm_ls for HLASM files with the generic client of VS Code, tells it of changes in libraries and settings, names the
// debug adapter, and puts blanks up to the next column where a field begins.
const fs = require('fs');
const path = require('path');
const vscode = require('vscode');
const { LanguageClient } = require('vscode-languageclient/node');

// Columns count from 0 in VS Code: operations begin in column 10 of a listing, operands in column 16.
const nextStop = (column) => (column < 9 ? 9 : column < 15 ? 15 : column - (column % 8) + 8);

function goToNextStop() {
  const editor = vscode.window.activeTextEditor;
  return editor && editor.edit((edit) => {
    for (const { active } of editor.selections) {
      edit.insert(active, ' '.repeat(nextStop(active.character) - active.character));
    }
  });
}

const GROUPS = '.hlasmplugin/proc_grps.json';

// The library folders of a workspace: `libs` of every group, each a text or an object with `path`, from the workspace's folder.
function libraryFolders(root) {
  const listIn = (object, name) => (object && Array.isArray(object[name]) ? object[name] : []);
  let settings;
  try {
    settings = JSON.parse(fs.readFileSync(path.join(root, GROUPS), 'utf8'));
  } catch {
    return [];
  }
  const libraries = listIn(settings, 'pgroups').flatMap((group) => listIn(group, 'libs'));
  const paths = libraries.map((it) => (it && it.path !== undefined ? it.path : it));
  return [...new Set(paths.filter((it) => typeof it === 'string').map((it) => path.resolve(root, it)))];
}

// What changes in the settings of a workspace and in its library folders, as one watcher of VS Code's form. Which folders these
// are is read again when the settings change.
class LibraryWatcher {
  constructor(root) {
    const emitters = { created: new vscode.EventEmitter(), changed: new vscode.EventEmitter(), deleted: new vscode.EventEmitter() };
    Object.assign(this, { root, folders: [], ...emitters });
    this.onDidCreate = this.created.event;
    this.onDidChange = this.changed.event;
    this.onDidDelete = this.deleted.event;
    this.settings = this.watch(root, '.hlasmplugin/*.json', () => this.readFolders());
    this.readFolders();
  }

  watch(folder, files, before) {
    const watcher = vscode.workspace.createFileSystemWatcher(new vscode.RelativePattern(vscode.Uri.file(folder), files));
    const pass = (emitter) => (uri) => {
      before();
      emitter.fire(uri);
    };
    watcher.onDidCreate(pass(this.created));
    watcher.onDidChange(pass(this.changed));
    watcher.onDidDelete(pass(this.deleted));
    return watcher;
  }

  readFolders() {
    this.folders.forEach((it) => it.dispose());
    this.folders = libraryFolders(this.root).map((folder) => this.watch(folder, '*', () => {}));
  }

  dispose() {
    [this.settings, ...this.folders, this.created, this.changed, this.deleted].forEach((it) => it.dispose());
  }
}

// The program that a debug session starts, with the folder that it is to find the libraries in.
function debugAdapter(session) {
  const folder = session.workspaceFolder && session.workspaceFolder.uri.fsPath;
  const command = vscode.workspace.getConfiguration('hlasm-ls').get('debugCommand');
  return new vscode.DebugAdapterExecutable(command, folder ? ['--root', folder] : []);
}

let client;

exports.activate = (context) => {
  context.subscriptions.push(vscode.commands.registerCommand('hlasm-ls.nextStop', goToNextStop));
  context.subscriptions.push(vscode.debug.registerDebugAdapterDescriptorFactory('hlasm', { createDebugAdapterDescriptor: debugAdapter }));
  const command = vscode.workspace.getConfiguration('hlasm-ls').get('command');
  // The root that the generic client gives the server is the first folder of the workspace.
  const [workspace] = vscode.workspace.workspaceFolders || [];
  const watchers = workspace && workspace.uri.scheme === 'file' ? [new LibraryWatcher(workspace.uri.fsPath)] : [];
  context.subscriptions.push(...watchers);
  client = new LanguageClient(
    'hlasm-ls',
    'HLASM',
    { command, args: ['serve'] },
    { documentSelector: [{ scheme: 'file', language: 'hlasm' }], synchronize: { fileEvents: watchers } },
  );
  return client.start();
};

exports.deactivate = () => client && client.stop();
