flock kept/lock keep history --wait 0 2>&1 || echo status $?
