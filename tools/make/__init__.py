"""What `make` calls: building, stamping and installing the program."""
