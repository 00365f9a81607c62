// The text of an object is never asked of a function of its own.
({toString: function () { return 'mine'; }}) + '';
