flock kept/lock cp -a kept copy && keep -r copy check
