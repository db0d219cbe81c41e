export RESTIC_PASSWORD=secret
tools/to-restic kept again
tools/from-restic again back
keep -r back check
