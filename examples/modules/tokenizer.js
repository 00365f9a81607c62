// A tokenizer of a small language: names, numbers, texts in quotes, signs and comments, each token with its line and its column.
function isIn(units, unit) {
  return unit !== "" && units.indexOf(unit) >= 0;
}

var LETTERS = "abcdefghijklmnopqrstuvwxyzABCDEFGHIJKLMNOPQRSTUVWXYZ_", DIGITS = "0123456789";
var WORDS = cajita.freeze({"if": true, "else": true, "while": true, "let": true});
// Longer signs first, so that the longest one is taken.
var SIGNS = cajita.freeze(["<=", ">=", "==", "!=", "<", ">", "=", "+", "-", "*", "/", "(", ")", "{", "}", ";"]);

function tokens(source) {
  var at = 0, line = 1, begin = 0, found = [];

  function fault(message) {
    throw new RangeError(message + " in line " + line + ", column " + (at - begin + 1));
  }

  // The longest text from here on whose units are among these.
  function longest(units) {
    var end = at;
    while (isIn(units, source.charAt(end))) {
      end++;
    }
    return source.slice(at, end);
  }

  function add(kind, text, value) {
    found.push(cajita.freeze({kind: kind, value: value, line: line, column: at - begin + 1}));
    at += text.length;
  }

  function sign() {
    for (var i = 0; i < SIGNS.length; i++) {
      if (source.slice(at, at + SIGNS[i].length) === SIGNS[i]) {
        return SIGNS[i];
      }
    }
    return fault("no token begins with " + source.charAt(at));
  }

  while (at < source.length) {
    var unit = source.charAt(at), text;
    if (unit === "\n") {
      at++;
      line++;
      begin = at;
    } else if (unit === " ") {
      at++;
    } else if (source.slice(at, at + 2) === "//") {
      var end = source.indexOf("\n", at);
      at = end < 0 ? source.length : end;
    } else if (isIn(LETTERS, unit)) {
      text = longest(LETTERS + DIGITS);
      add(text in WORDS ? "word" : "name", text, text);
    } else if (isIn(DIGITS, unit)) {
      text = longest(DIGITS);
      add("number", text, Number(text));
    } else if (unit === "'") {
      var close = source.indexOf("'", at + 1);
      if (close < 0 || source.slice(at, close).indexOf("\n") >= 0) {
        fault("an open text");
      }
      add("text", source.slice(at, close + 1), source.slice(at + 1, close));
    } else {
      text = sign();
      add("sign", text, text);
    }
  }
  return found;
}

function told(source) {
  try {
    var list = tokens(source), lines = [];
    for (var i = 0; i < list.length; i++) {
      lines.push(list[i].line + ":" + list[i].column + " " + list[i].kind + " " + list[i].value);
    }
    return lines.join(", ");
  } catch (e) {
    return e.message;
  }
}

say(told("let total = 0x; // no hexadecimal numbers"));
say(told("if (total <= 10)\n  total = total+1;"));
say(told("say 'two words' // and a comment\n'open"));
say(told("a = b # c"));
tokens("while (n != 1) { n = n / 2; }").length + " tokens";
