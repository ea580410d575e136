// A worker of a browser that answers calls.
import {answering} from './answering.js';

const answer = answering(told => self.postMessage(told));
self.addEventListener('message', event => answer(event.data));
