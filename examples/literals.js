[1, "a", {b: true, "c d": null, 5: []}];
