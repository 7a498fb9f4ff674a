# What it takes to prove and build the program from nothing, as it was measured last. README.md and CONTRIBUTING.md say it in
# the same words, which tests/documents/run compares.
build_cost='30 minutes on four processors'
build_disk='7.5 GB of disk'
