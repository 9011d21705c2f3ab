"""What the scripts that measure the built program share: how it is run, and the parts of the definitions that it is given."""
