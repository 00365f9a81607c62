Math.abs = null;
