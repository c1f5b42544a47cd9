#!/usr/bin/env node
// A small reverse proxy in front of `tpf serve`, of node's own modules alone. It stands in for the proxy
// of your choice, and shows what any of them has to do:
//
//   TLS            pages over https as well as over http
//   one path       GET and HEAD of the path of the pages alone, so that nobody can ask for a reload
//   a cache        pages are kept for some seconds, each under its own address; SIGHUP forgets them
//   gzip           for who accepts it, with `Vary: Accept-Encoding`
//   cross-origin   `Access-Control-Allow-Origin: *`, so that scripts of other pages may ask
//   limits         on connections, on the time that a client and the server have, and on the cache
//
//   node proxy.js --from 127.0.0.1:8080 --host localhost:8080 --path /people --http 192.0.2.1:80
//
// Further options stand in `options` below. It writes `ready` once it can be asked.
'use strict';

const fs = require('node:fs');
const http = require('node:http');
const https = require('node:https');
const zlib = require('node:zlib');
const { once } = require('node:events');
const { parseArgs } = require('node:util');

const options = {
  from: { type: 'string' }, // where `tpf serve` listens: ADDRESS:PORT
  host: { type: 'string' }, // the host and port of the base
  path: { type: 'string' }, // the path of the base
  http: { type: 'string' }, // where to listen for http: ADDRESS:PORT
  https: { type: 'string' }, // where to listen for https, with --key and --cert
  key: { type: 'string' },
  cert: { type: 'string' },
  keep: { type: 'string', default: '60' }, // for how many seconds a page is kept
  patience: { type: 'string', default: '20' }, // the seconds that a client may be silent, and the server
  connections: { type: 'string', default: '500' }, // the most connections of clients at once
  links: { type: 'string', default: '16' }, // the most connections to the server at once
  'cache-bytes': { type: 'string', default: '268435456' },
  say: { type: 'string' }, // the address that pages are to name in place of the base's
};
const { values: set } = parseArgs({ options });
const [keep, patience, connections, links, cacheBytes] = ['keep', 'patience', 'connections', 'links', 'cache-bytes'].map(
  (name) => Number(set[name]),
);
const base = `http://${set.host}${set.path}`;

/** The address and the port of a text like 127.0.0.1:8080. */
function place(text) {
  const colon = text.lastIndexOf(':');
  return { host: text.slice(0, colon), port: Number(text.slice(colon + 1)) };
}

// The server of pages.

const agent = new http.Agent({ keepAlive: true, maxSockets: links });

/** Asks the server for a target: the status, the media type and the body. */
async function fetched(target) {
  const asked = http.get({
    ...place(set.from),
    path: target,
    headers: { Host: set.host, Accept: 'application/n-quads' },
    agent,
    timeout: patience * 1000,
  });
  asked.on('timeout', () => asked.destroy(new Error('the server is silent')));
  const [reply] = await once(asked, 'response');
  const chunks = [];
  for await (const chunk of reply) chunks.push(chunk);
  const body = Buffer.concat(chunks);
  return { status: reply.statusCode, type: reply.headers['content-type'], body: set.say ? renamed(body) : body };
}

/** A body in which the base's address is named as clients know it. */
function renamed(body) {
  return Buffer.from(body.toString().replaceAll(base, set.say));
}

// The pages that are kept, the oldest first, and those that are being asked for.

const pages = new Map();
const asked = new Map();
let held = 0;

function forget(target) {
  held -= pages.get(target).size;
  pages.delete(target);
}

/** Keeps a page, and forgets the oldest ones where they are too many bytes together. */
function remember(target, page) {
  pages.set(target, page);
  held += page.size;
  for (const oldest of pages.keys()) {
    if (held <= cacheBytes) break;
    forget(oldest);
  }
}

/** The page of a target: kept, or asked for once, however many clients want it at that time. */
async function pageOf(target) {
  const known = pages.get(target);
  if (known && Date.now() < known.until) return { ...known, kept: true };
  if (known) forget(target);
  if (!asked.has(target)) asked.set(target, ask(target).finally(() => asked.delete(target)));
  return { ...(await asked.get(target)), kept: false };
}

async function ask(target) {
  const came = await fetched(target);
  const page = { ...came, came: Date.now(), until: Date.now() + keep * 1000 };
  if (came.status !== 200) return page;
  page.zipped = zlib.gzipSync(came.body);
  page.size = came.body.length + page.zipped.length + 2 * target.length;
  remember(target, page);
  return page;
}

process.on('SIGHUP', () => {
  pages.clear();
  held = 0;
});

// The clients.

/** Whether a request takes gzip: `gzip` or `*`, without `q=0`. */
function takesGzip(request) {
  const codings = (request.headers['accept-encoding'] ?? '').toLowerCase().split(',');
  const known = new Map(codings.map((it) => it.split(';').map((word) => word.trim())));
  const quality = known.has('gzip') ? known.get('gzip') : known.has('*') ? known.get('*') : 'q=0';
  return !/^q=0(\.0*)?$/.test(quality ?? '');
}

function refuse(response, status, fields = {}) {
  const body = `${status} ${http.STATUS_CODES[status]}\n`;
  response.writeHead(status, { 'Content-Type': 'text/plain', 'Content-Length': body.length, ...fields });
  response.end(body);
}

/** Answers a request for a page. */
async function give(request, response) {
  const page = await pageOf(request.url);
  const isZipped = page.zipped && takesGzip(request);
  const body = isZipped ? page.zipped : page.body;
  response.writeHead(page.status, {
    'Content-Type': page.type,
    'Content-Length': body.length,
    ...(isZipped && { 'Content-Encoding': 'gzip' }),
    'Cache-Control': page.status === 200 ? `public, max-age=${keep}` : 'no-store',
    Age: Math.floor((Date.now() - page.came) / 1000),
    'X-Cache': page.kept ? 'kept' : 'asked',
  });
  response.end(request.method === 'HEAD' ? undefined : body);
}

async function answer(request, response) {
  response.setHeader('Access-Control-Allow-Origin', '*');
  response.setHeader('Vary', 'Accept-Encoding');
  if (request.method === 'OPTIONS') {
    response.writeHead(204, { 'Access-Control-Allow-Methods': 'GET, HEAD', 'Access-Control-Allow-Headers': '*' });
    return response.end();
  }
  if (!['GET', 'HEAD'].includes(request.method)) return refuse(response, 405, { Allow: 'GET, HEAD, OPTIONS' });
  if (request.url.split('?')[0] !== set.path) return refuse(response, 404);
  try {
    await give(request, response);
  } catch (error) {
    console.error(`${request.url}: ${error.message}`);
    if (!response.headersSent) refuse(response, 502);
  }
}

/** Opens a door, with its limits. */
async function open(server, at) {
  server.maxConnections = connections;
  server.headersTimeout = patience * 1000;
  server.requestTimeout = patience * 1000;
  server.keepAliveTimeout = patience * 1000;
  server.setTimeout(patience * 1000); // a client that does not take its answer
  server.listen(place(at));
  await once(server, 'listening');
}

async function main() {
  const limits = { connectionsCheckingInterval: 1000 };
  if (set.http) await open(http.createServer(limits, answer), set.http);
  if (set.https) {
    const secrets = { key: fs.readFileSync(set.key), cert: fs.readFileSync(set.cert) };
    await open(https.createServer({ ...limits, ...secrets }, answer), set.https);
  }
  console.log('ready');
}

main();
