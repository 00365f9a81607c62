function Text() { this.parts = []; }
Text.prototype = {
  add: function (s) { this.parts.push(s); return this; },
  wrap: function (a, b) { this.parts = [a].concat(this.parts, [b]); return this; },
  done: function () { return this.parts.join(''); }
};
new Text().add('one').add(', ').add('two').wrap('<', '>').done();
