// semscan in VS Code: starts semscan-lsp for the folder that is open.
const { workspace } = require('vscode');
const { LanguageClient } = require('vscode-languageclient/node');

// Files are told by their endings, as semscan does it: VS Code takes a header file (.h) for C++.
const FILES = '**/*.{py,pyi,c,h,json,txt,md,yaml,yml,toml,ini,cfg,sh,html}';
const NAMES = ['config', 'paths', 'debounce', 'max', 'trace'];
let client;

function settings() {
  const chosen = workspace.getConfiguration('semscan');
  return Object.fromEntries(NAMES.map((name) => [name, chosen.get(name)]));
}

exports.activate = function (context) {
  const command = workspace.getConfiguration('semscan').get('command');
  client = new LanguageClient('semscan', 'semscan', { command, args: [] }, {
    documentSelector: [{ scheme: 'file', pattern: FILES }],
    initializationOptions: settings(),
  });
  context.subscriptions.push(workspace.onDidChangeConfiguration((change) => {
    if (change.affectsConfiguration('semscan')) {
      client.sendNotification('workspace/didChangeConfiguration', { settings: { semscan: settings() } });
    }
  }));
  return client.start();
};

exports.deactivate = function () {
  return client && client.stop();
};
