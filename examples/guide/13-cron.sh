keep mark 2>&1 || echo status $?
