keep mark
keep sweep --older-than 1d 2>&1
keep sweep > /dev/null && keep history --last 1
