keep forget --keep-daily 7 --keep-weekly 4 --keep-monthly 12 --keep-tag keep 2>&1
keep tag --all --add keep > /dev/null
keep rewrite --exclude names --forget > /dev/null && keep snapshots
