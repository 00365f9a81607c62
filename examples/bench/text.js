// Texts: the years up to 1000 in Roman numerals, built unit by unit; the longest one, and the length of all.
// ./caja run --steps 10000000 < examples/bench/text.js
var values = [1000, 900, 500, 400, 100, 90, 50, 40, 10, 9, 5, 4, 1];
var signs = ["M", "CM", "D", "CD", "C", "XC", "L", "XL", "X", "IX", "V", "IV", "I"];

function roman(n) {
  var text = "";
  for (var i = 0; n > 0; i++) {
    while (n >= values[i]) {
      text += signs[i];
      n -= values[i];
    }
  }
  return text;
}

function reversed(text) {
  var back = "";
  for (var i = text.length - 1; i >= 0; i--) {
    back += text.charAt(i);
  }
  return back;
}

var total = 0, longest = "", same = 0;
for (var year = 1; year <= 1000; year++) {
  var text = roman(year);
  total += text.length;
  if (text.length > longest.length) longest = text;
  if (reversed(text) === text) same++;
}
longest + ", " + total + " signs, " + same + " read the same from behind";
