"""What the gate counts, refuses and holds."""
