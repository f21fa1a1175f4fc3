// What stands after # in the address: a row, the rules, an example. A row is named by connection, direction and offset: at=0-A-78.

/** @param {string} hash @returns {URLSearchParams} */
export const askedBy = hash => new URLSearchParams(hash.replace(/^#/, ''));

/** @param {string | null} text @returns {{ number: number, side: number, offset: number } | null} */
export function placeOf(text) {
  const found = /^(\d+)-([AB])-(\d+)$/.exec(text ?? '');
  return found && { number: Number(found[1]), side: found[2] === 'A' ? 0 : 1, offset: Number(found[3]) };
}

/**
 * The address of a row, with what else it needs to be the same. `example` is empty for a file.
 * @param {number} number @param {any} row @param {{ rules: string, pieces: string, example: string }} how
 */
export function linkTo(number, row, { rules, pieces, example }) {
  const asked = askedBy(location.hash);
  if (example) asked.set('example', example); else asked.delete('example');
  asked.set('at', `${number}-${'AB'[row.side]}-${row.event?.verdict ? row.event.verdict.at : row.offset}`);
  if (rules === 'bep') asked.set('rules', 'bep'); else asked.delete('rules');
  if (pieces) asked.set('pieces', pieces); else asked.delete('pieces');
  return `#${asked}`;
}
