function kind(e) {
  return e.name + " '" + e.message + "' " + (e instanceof Error) + " " + (e instanceof TypeError);
}
var e = new Error("as it was"), keys = 0;
e.message = "other";
for (var key in e) keys++;
var caught;
try { undefined.x; } catch (thrown) { caught = thrown; }
[kind(e), kind(RangeError(404)), kind(new TypeError()), kind(caught), keys, delete e.message].join(", ");
