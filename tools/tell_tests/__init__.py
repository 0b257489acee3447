"""The scripts that tools/test_tell tells, with what it says of each."""
