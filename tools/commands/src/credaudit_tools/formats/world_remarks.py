"""Remarks of worlds, for whoever reads them: what a world says of itself. No command looks for them."""

SCANNED = "Files: all programs with set-id bits or capabilities that were found on the mounts of the family."
UNSCANNED = "Files: not scanned. A `yes` holds by the family's own calls alone, without the programs that it can run."
