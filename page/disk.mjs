// The system's files and streams in node, for host.mjs.
import fs from 'node:fs';
import path from 'node:path';

// The error's number. (node negates it already.)
function numberOf(error) {
  if (typeof error.errno !== 'number') throw error;
  return error.errno;
}

function attempt(call) {
  try { return call(); } catch (error) { return numberOf(error); }
}

/** @returns {import('./host.mjs').Stream} The open file with this descriptor. */
export function streamOn(descriptor, isTerminal = false) {
  return {
    isTerminal,
    read: room => attempt(() => fs.readSync(descriptor, room, 0, room.length, null)),
    write: bytes => attempt(() => fs.writeSync(descriptor, bytes)),
    close: () => { fs.closeSync(descriptor); },
  };
}

/**
 * The files of the system; relative names begin in a folder.
 * @implements {import('./host.mjs').Files}
 */
export class DiskFiles {
  /** @param {string} [folder] */
  constructor(folder = '.') {
    this.folder = folder;
  }

  /** The path of a name. (A trailing slash stays, and an empty name finds no file.) */
  at(name) {
    return name === '' || path.isAbsolute(name) ? name : `${this.folder}/${name}`;
  }

  open(name, isNew) {
    const descriptor = attempt(() => fs.openSync(this.at(name), isNew ? 'wx' : 'r'));
    return descriptor < 0 ? descriptor : streamOn(descriptor);
  }

  rename(from, to) {
    return attempt(() => fs.renameSync(this.at(from), this.at(to)) ?? 0);
  }

  unlink(name) {
    return attempt(() => fs.unlinkSync(this.at(name)) ?? 0);
  }

  stat(name) {
    const found = attempt(() => fs.statSync(this.at(name)));
    return typeof found === 'number' ? found : {number: found.ino, isFolder: !found.isFile()};
  }
}
