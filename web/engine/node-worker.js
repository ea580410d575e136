// A worker thread of Node that answers calls.
import {parentPort} from 'node:worker_threads';
import {answering} from './answering.js';

if (parentPort) {
  const port = parentPort;
  port.on('message', answering(told => port.postMessage(told)));
}
