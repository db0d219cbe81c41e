keep forget --keep-last 1 --dry-run
