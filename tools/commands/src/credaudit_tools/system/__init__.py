"""What a live system shows: processes, namespaces, mounts, programs with set-id bits."""
