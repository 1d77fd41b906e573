"""What the program's short lines mean: the inputs of a command read again by the tools' own readers, and each refusal said in full."""
