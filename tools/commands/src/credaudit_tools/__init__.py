"""What the commands around credaudit share: readers of worlds, logs, reports and recordings, and the program's runner.

Nothing here judges: every replay and every answer comes from the program. The plain checkers (tools/plain) neither
use this package nor are used by it, so that one can be held against the other.
"""

VERSION = "2026.12.1"
