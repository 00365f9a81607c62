// Scanning: sums, products and parentheses, read unit by unit and worked out by descent.
// ./caja run --steps 10000000 < examples/bench/scanner.js
var source, at;

function number() {
  var value = 0, code = source.charCodeAt(at);
  while (code >= 48 && code <= 57) {
    value = value * 10 + code - 48;
    at++;
    code = at < source.length ? source.charCodeAt(at) : 0;
  }
  return value;
}

function factor() {
  if (source.charAt(at) !== "(") return number();
  at++;
  var value = sum();
  at++;
  return value;
}

function term() {
  for (var value = factor(); source.charAt(at) === "*"; value *= factor()) at++;
  return value;
}

function sum() {
  var value = term(), sign;
  while ((sign = source.charAt(at)) === "+" || sign === "-") {
    at++;
    value += sign === "+" ? term() : -term();
  }
  return value;
}

var total = 0;
for (var turn = 0; turn < 300; turn++) {
  source = "12*(3+" + turn + ")-(4-2*(15+1))*3+1024";
  at = 0;
  total += sum();
}
total;
