"""What the harnesses share: the program and its connections, the model, frames, the log's format, deviations, and the words of a command line."""
