"""A recording, its replay by the program, and the world that it ends with."""
