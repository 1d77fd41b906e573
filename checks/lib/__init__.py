"""What the checks share: no file of this folder is a check."""
