"""A service of systemd that is started to be recorded."""
