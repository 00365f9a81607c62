var words = "to be or not to be".split(" "), counts = {}, text = "";
for (var i = 0; i < words.length; i++) {
  var key = "w" + words[i];
  counts[key] = (key in counts ? counts[key] : 0) + 1;
}
for (var known in counts) text += known.slice(1) + " " + counts[known] + ", ";
text;
