"""From strace's lines to the plain lines of a recording's log."""
