"""Files that are executed while a recording is made: found by their paths, and looked at."""
