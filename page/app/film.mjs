// Films: a part of a run, step by step, as `a2lab film` writes it. The reader of their data is that of the film's own
// page: the script before this one declares `openFilm` and `loresColours` (reader.mjs).

const BEGIN = '<script type="text/plain" id="film">', END = '</script>';

/**
 * Returns the film that is in a page that a2lab wrote.
 * @param {string} page
 * @param {number} [linesBefore] So many lines of the source are not the user's, and have no number.
 */
export function filmIn(page, linesBefore = 0) {
  const from = page.indexOf(BEGIN) + BEGIN.length, end = page.indexOf(END, from);
  return openFilm(page.slice(from, end), linesBefore);
}

/** The sixteen colours of lo-res. */
export const colours = loresColours;
