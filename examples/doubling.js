// Each turn doubles a text, until memory is wanting.
var text = 'a';
while (true) { text = text + text; }
