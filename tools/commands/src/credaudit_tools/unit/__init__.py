"""credaudit-unit: what the processes of a systemd unit can get."""
