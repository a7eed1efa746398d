// The words that a cave knows: what completes a word that is typed, and words that are unknown.

const vocabulary = (() => {
  const { words, rules, letters } = data.live;
  const cut = (word) => word.toUpperCase().slice(0, letters);
  // The rules know their own words by five letters, however many count.
  const ofRules = new Set(rules.map((it) => it.slice(0, 5)));
  const known = new Set(words.map(cut));
  const isKnown = (word) => known.has(cut(word)) || ofRules.has(word.toUpperCase().slice(0, 5));
  const all = [...new Set(words.map((it) => it.toLowerCase()))].sort();
  return { isKnown, all };
})();

const SEED_LINE = /^[ \t]*seed \d{1,10}[ \t]*$/;
const MOST_COMPLETED = 8;
const isPlayed = (line) => !isComment(line) && !SEED_LINE.test(line);

// A line as runs of blanks and of other letters, each with whether it is an unknown word: of its
// first two words, and not after SAY, which says any word.
function runsOf(line) {
  const runs = line.match(/[ \t]+|[^ \t]+/g) ?? [];
  if (!isPlayed(line)) return runs.map((text) => ({ text, isUnknown: false }));
  const words = runs.filter((it) => /[^ \t]/.test(it));
  const isAny = words[0]?.toUpperCase() === "SAY";
  let at = -1;
  return runs.map((text) => {
    if (!/[^ \t]/.test(text)) return { text, isUnknown: false };
    at += 1;
    return { text, isUnknown: at < (isAny ? 1 : 2) && !vocabulary.isKnown(text) };
  });
}

const unknownIn = (line) => runsOf(line).filter((it) => it.isUnknown).map((it) => it.text);

// The words that begin as the one before the caret does, the nearest first.
function completionsOf(line, caret) {
  if (!isPlayed(line)) return { begin: caret, words: [] };
  const start = /[^ \t]*$/.exec(line.slice(0, caret))[0];
  const begin = caret - start.length;
  const isWhole = caret < line.length && /[^ \t]/.test(line[caret]);
  if (!start || isWhole) return { begin, words: [] };
  const lower = start.toLowerCase();
  const words = vocabulary.all.filter((it) => it.startsWith(lower) && it !== lower);
  return { begin, words: words.slice(0, MOST_COMPLETED) };
}
