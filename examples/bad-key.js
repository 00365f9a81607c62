var key = "FROZEN___", o = {};
o[key];
key in o;
o[key] = true;
