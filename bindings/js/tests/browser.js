// Opens a page in a browser, serves it the folders on a port of this machine, and prints the report that the page sends
// to /report. The status is 0 if that ends in ' 0 failed'. A page that is a file gets the port in its address.
import { spawn } from 'node:child_process';
import { existsSync, mkdtempSync, readFileSync, rmSync } from 'node:fs';
import { createServer } from 'node:http';
import { tmpdir } from 'node:os';
import { extname, join } from 'node:path';

const [, , name, path, ...folders] = process.argv;
const types = { '.html': 'text/html; charset=utf-8', '.js': 'text/javascript' };
// Pages have SharedArrayBuffer only with these.
const isolated = { 'Cross-Origin-Opener-Policy': 'same-origin', 'Cross-Origin-Embedder-Policy': 'require-corp' };
const commands = {
  chromium: (profile, url) => ['chromium', '--headless', '--no-sandbox', '--disable-gpu', '--disable-dev-shm-usage',
    '--no-first-run', '--remote-debugging-port=0', `--user-data-dir=${profile}`, url],
  firefox: (profile, url) => ['firefox-esr', '--headless', '--no-remote', '--profile', profile, url],
};
let browser;
let report;

const server = createServer(async (request, response) => {
  if (request.method === 'POST') {
    report = (await request.toArray()).join('');
    response.end();
    browser.kill();
    return;
  }
  const { pathname } = new URL(request.url, 'http://localhost');
  const file = folders.map((folder) => join(folder, pathname)).find(existsSync);
  response.writeHead(file ? 200 : 404, { ...isolated, 'Content-Type': types[extname(pathname)] ?? 'text/plain' });
  response.end(file && readFileSync(file));
});

// On a busy machine Chromium sometimes hangs at its start, so another one is started with a new profile, and may take
// longer. timeout ends a browser and what it has started.
function start(attempt) {
  const profile = mkdtempSync(join(tmpdir(), `${name}-`));
  const { port } = server.address();
  const url = path.startsWith('file:') ? `${path}?port=${port}` : `http://127.0.0.1:${port}/${path}`;
  browser = spawn('timeout', ['--kill-after=1', `${100 * attempt ** 2}`, ...commands[name](profile, url)],
    { stdio: 'ignore', env: { ...process.env, HOME: profile, TMPDIR: profile } });
  browser.on('exit', () => {
    rmSync(profile, { recursive: true, force: true, maxRetries: 20, retryDelay: 100 });
    if (report === undefined && attempt < 3) return start(attempt + 1);
    console.log(report ?? `${name} sent no report`);
    process.exitCode = report?.endsWith(' 0 failed') ? 0 : 1;
    server.close();
  });
}

server.listen(0, '127.0.0.1', () => start(1));
