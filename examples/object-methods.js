var o = {}, toText = Object.prototype.toString;
[
  o.toString(), [1, [2, 3]].toString(), toText.toString(), (5).toString(), true.toString(), "a".toString(),
  toText.call(null), o.valueOf() === o, (5).valueOf(), Object.prototype.valueOf.call(undefined)
].join("; ");
