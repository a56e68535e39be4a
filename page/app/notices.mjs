// Messages of the page itself, and its questions.
import {byId, make} from './dom.mjs';

/**
 * Shows a message until it is closed. A second one with the same text is not added.
 * @param {string} text
 * @param {object} [how]
 * @param {'note' | 'error'} [how.kind]
 * @param {[string, () => void][]} [how.buttons] Labels and what they do; the message is closed first.
 */
export function notify(text, {kind = 'note', buttons = []} = {}) {
  const area = byId('notices');
  if ([...area.children].some(it => it.dataset.text === text)) return;
  const notice = make('div', {class: `notice ${kind}`, 'data-text': text, role: kind === 'error' ? 'alert' : 'status'}, make('span', {}, text));
  for (const [label, does] of buttons) notice.append(make('button', {type: 'button', onclick: () => { notice.remove(); does(); }}, label));
  notice.append(make('button', {type: 'button', 'aria-label': 'Close this message', class: 'close', onclick: () => notice.remove()}, '×'));
  area.append(notice);
}

/**
 * Asks for a line of text, or for a yes.
 * @param {string} question
 * @param {object} [how]
 * @param {string} [how.value] The text at the start. If it is left out, only a yes is asked for.
 * @param {string} [how.yes] The label of the button that accepts.
 * @returns {Promise<string | null>} The text, or an empty text for a yes; null if the question was dismissed.
 */
export function ask(question, {value, yes = 'OK'} = {}) {
  const dialog = byId('question'), field = byId('answer');
  byId('asks').textContent = question;
  byId('yes').textContent = yes;
  field.hidden = value === undefined;
  field.value = value ?? '';
  dialog.returnValue = '';
  dialog.showModal();
  if (!field.hidden) field.select();
  return new Promise(done => {
    dialog.onclose = () => done(dialog.returnValue === 'yes' ? field.value : null);
  });
}
