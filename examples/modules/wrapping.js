// Text in lines of a given width: broken at spaces, to the left, to the right, in the middle, or in full lines with the spaces spread over them.
function repeated(text, times) {
  var result = "";
  while (times-- > 0) {
    result += text;
  }
  return result;
}

// The words, line by line; a word that is longer than a line is cut.
function lines(text, width) {
  var words = text.split(" "), all = [], line = [], length = 0;

  function end() {
    if (line.length > 0) {
      all.push(line);
    }
    line = [];
    length = 0;
  }

  for (var i = 0; i < words.length; i++) {
    var word = words[i];
    while (word.length > width) {
      end();
      all.push([word.slice(0, width)]);
      word = word.slice(width);
    }
    if (word === "") {
      continue;
    }
    if (length > 0 && length + 1 + word.length > width) {
      end();
    }
    length += (length > 0 ? 1 : 0) + word.length;
    line.push(word);
  }
  end();
  return all;
}

function spread(words, width) {
  var units = words.join("").length, gaps = words.length - 1, text = words[0];
  for (var i = 1; i < words.length; i++) {
    // What is left of the spaces goes to the gaps that are left, the first ones getting one more.
    var left = gaps - i + 1, missing = width - units, here = (missing - missing % left) / left + (missing % left > 0 ? 1 : 0);
    units += here;
    text += repeated(" ", here) + words[i];
  }
  return text;
}

function placed(words, width, how, isLast) {
  var text = words.join(" "), free = width - text.length;
  switch (how) {
    case "right":
      return repeated(" ", free) + text;
    case "middle":
      return repeated(" ", free >> 1) + text;
    case "full":
      if (!isLast && words.length > 1) {
        return spread(words, width);
      }
      // The last line is as one to the left.
    default:
      return text;
  }
}

function wrapped(text, width, how) {
  var all = lines(text, width), result = [];
  for (var i = 0; i < all.length; i++) {
    result.push("|" + placed(all[i], width, how, i === all.length - 1));
  }
  return result;
}

var text = "Each access to an object goes through a guard, and no guard lets a module reach what nobody gave it.";
var ways = ["left", "right", "middle", "full"];
for (var i = 0; i < ways.length; i++) {
  var result = wrapped(text, 26, ways[i]);
  for (var j = 0; j < result.length; j++) {
    say(result[j]);
  }
}
wrapped("an extraordinarily long word", 10, "left").join(" ");
