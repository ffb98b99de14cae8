"""credaudit-timeline: from when to when each right of a family was held or could be had again, and since when it is
gone."""
