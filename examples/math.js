[Math.abs(-5), Math.floor("7"), Math.ceil(8), Math.round(-9), Math.max(3, "12", true), Math.min(3, -9, null), Math.max(4)].join(" ");
