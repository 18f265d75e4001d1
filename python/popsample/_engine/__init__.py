"""What makes samples: the library, by calls with arrays, or the program, by text."""
