function half(n) {
  if (n % 2) throw new RangeError("odd: " + n);
  return n / 2;
}
function told(n) {
  try {
    return "" + half(n);
  } catch (e) {
    if (!(e instanceof RangeError)) throw e;
    return e.name + " " + e.message;
  } finally {
    say("asked for " + n);
  }
}
[told(8), told(7)].join("; ");
