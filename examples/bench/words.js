// Words: how often each word occurs in a text, by a record of counts.
// ./caja run --steps 10000000 < examples/bench/words.js
var rhyme = "how much wood would a woodchuck chuck if a woodchuck could chuck wood " +
    "he would chuck he would as much as he could and chuck as much wood " +
    "as a woodchuck would if a woodchuck could chuck wood";

function count(text) {
  var counts = {}, words = text.split(" "), word;
  for (var i = 0; i < words.length; i++) {
    word = words[i];
    counts[word] = (counts[word] || 0) + 1;
  }
  return counts;
}

function told(counts, least) {
  var lines = [];
  for (var word in counts) {
    if (counts[word] >= least) {
      lines[lines.length] = word + " " + counts[word];
    }
  }
  return lines.join(", ");
}

var line;
for (var turn = 0; turn < 350; turn++) {
  line = told(count(rhyme), 2 + turn % 3);
}
line;
