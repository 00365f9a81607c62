var colors = cajita.freeze({red: 1, green: 2}), told;
try { colors.red = 3; } catch (e) { told = e.message; }
told + ", " + colors.red;
