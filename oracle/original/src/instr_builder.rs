// Not among the published files, and nothing of it is used here.
