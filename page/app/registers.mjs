// Shows the registers, the flags and the stack.
import {byId, hex, make} from './dom.mjs';

/** The flags of P from bit 7 down. Bits 5 and 4 are none. */
const FLAGS = [['N', 'negative'], ['V', 'overflow'], null, null, ['D', 'decimal'], ['I', 'interrupts off'], ['Z', 'zero'], ['C', 'carry']];
const MOST_OF_STACK = 16;

// A button with a register. One that this step changed is marked.
function register(name, value, hasChanged, isChosen) {
  const digits = hex(value, name === 'PC' ? 4 : 2), label = 'AXY'.includes(name) ? `${name} = ${value}` : name;
  return make('button', {type: 'button', 'data-register': name, class: hasChanged ? 'changed' : '', 'aria-pressed': String(isChosen),
    'aria-label': `${name} ${digits}`}, make('small', {}, label), make('b', {}, digits));
}

function flag([letter, title], bit, hasChanged) {
  return make('span', {title, class: `${bit ? 'set' : ''}${hasChanged ? ' changed' : ''}`}, `${letter}${bit}`);
}

/** Shows those at a step of a film. `chosen` is the register that the user asks about, if any. */
export function showRegisters(film, at, chosen) {
  const {REG, PC, ram} = film, focused = document.activeElement?.dataset?.register, area = byId('registers');
  const one = name => {
    const values = REG[name.toLowerCase()];
    return register(name, values[at], at > 0 && values[at] !== values[at - 1], chosen === name);
  };
  area.replaceChildren(...['A', 'X', 'Y', 'S', 'P'].map(one), register('PC', PC[at], false, chosen === 'PC'));
  area.querySelector(`[data-register="${focused}"]`)?.focus();
  const p = REG.p[at], other = at > 0 ? p ^ REG.p[at - 1] : 0;
  const flags = FLAGS.flatMap((it, index) => it ? [flag(it, p >> 7 - index & 1, other >> 7 - index & 1)] : []);
  const top = 0x101 + REG.s[at], stack = [...ram.subarray(top, Math.min(0x200, top + MOST_OF_STACK))].map(it => hex(it));
  byId('flags').replaceChildren('Flags ', ...flags, ` Stack ${stack.join(' ') || 'empty'}`);
}
