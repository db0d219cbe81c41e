keep forget --keep-last 1
keep history
keep undo 3
