"""What makes worlds, logs and recordings suspect that the program accepts."""
