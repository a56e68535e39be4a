// What the tests of a2.html use.

/** Returns an expression for the page that awaits the end of these statements. */
export const inPage = body => `(async () => { ${body} })()`;
